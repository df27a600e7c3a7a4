//! Graphs, which show why a goal holds or does not.
use crate::session::Outcome;
use crate::table::{Goal, PathKind};
use crate::Error;

/// The graph of an answer: the runs of goals on which it rests, the one of the goal that was asked first.
///
/// It is owned, and outlives the session. `G` is what goals are: numbers of a table, or the goals of [`Rules`](crate::Rules).
#[derive(Clone, Debug, PartialEq, Eq)]
pub struct Graph<G = Goal> {
    /// Of each node: goal, outcome, count of replies, the replies, count of edges, and the kind and target of each edge.
    words: Vec<u64>,
    nodes: Vec<Parts<G>>,
}

/// A node's goal, and where its parts stand among the words.
#[derive(Clone, Debug, PartialEq, Eq)]
struct Parts<G> {
    goal: G,
    outcome: Outcome,
    replies: std::ops::Range<usize>,
    edges: std::ops::Range<usize>,
}

/// What the frame of a goal was told.
#[derive(Clone, Copy, Debug, PartialEq, Eq, Hash)]
pub enum Reply {
    /// To begin.
    Begin,
    /// That a candidate begins, ends or is ignored.
    Noted,
    /// What a question was answered with.
    Answer(Outcome),
}

/// One run of a goal.
#[derive(Debug)]
pub struct Node<'g, G = Goal> {
    graph: &'g Graph<G>,
    place: usize,
}

/// A question on which a node's outcome rests, and the node that answers it, of the goal that is asked.
#[derive(Debug)]
pub struct Edge<'g, G = Goal> {
    /// The kind of the step.
    pub kind: PathKind,
    /// What answers it.
    pub target: Node<'g, G>,
}

impl<G> Clone for Node<'_, G> {
    fn clone(&self) -> Self {
        *self
    }
}

impl<G> Copy for Node<'_, G> {}

impl<G> Clone for Edge<'_, G> {
    fn clone(&self) -> Self {
        *self
    }
}

impl<G> Copy for Edge<'_, G> {}

/// Reads words one by one.
struct Reader<'w> {
    words: &'w [u64],
    place: usize,
}

impl Reader<'_> {
    fn bad<T>(&self) -> Result<T, Error> {
        Err(Error::BadGraph { place: self.place })
    }

    /// The next word, as what `read` makes of it.
    fn next<T>(&mut self, read: impl Fn(u64) -> Option<T>) -> Result<T, Error> {
        match self.words.get(self.place).and_then(|it| read(*it)) {
            Some(value) => {
                self.place += 1;
                Ok(value)
            }
            None => self.bad(),
        }
    }

    /// The places of as many parts, of `width` words each, as the next word says, each of which `is_one` accepts.
    fn parts(&mut self, width: usize, is_one: impl Fn(&[u64]) -> bool) -> Result<std::ops::Range<usize>, Error> {
        let left = self.words.len() - self.place;
        let count = self.next(|it| usize::try_from(it).ok().filter(|it| *it <= left))?;
        let start = self.place;
        for _ in 0..count {
            match self.words.get(self.place..self.place + width) {
                Some(part) if is_one(part) => self.place += width,
                _ => return self.bad(),
            }
        }
        Ok(start..self.place)
    }

    fn node(&mut self) -> Result<Parts<Goal>, Error> {
        let goal = self.next(|it| u32::try_from(it).ok().map(Goal))?;
        let outcome = self.next(Outcome::of)?;
        let replies = self.parts(1, |it| reply(it[0]).is_some())?;
        let edges = self.parts(2, |it| PathKind::of(it[0]).is_some())?;
        Ok(Parts { goal, outcome, replies, edges })
    }
}

fn reply(number: u64) -> Option<Reply> {
    match number {
        4 => Some(Reply::Noted),
        5 => Some(Reply::Begin),
        _ => Outcome::of(number).map(Reply::Answer),
    }
}

impl Graph {
    /// The graph that these words are, as [`Graph::words`] has them and `docs/CHECKING.md` explains: of each node the number
    /// of its goal, its outcome (0 yes, 1 no, 2 maybe, 3 overflow), how many replies there are and these (0 to 3 an answer's
    /// outcome, 4 noted, 5 begin), how many edges there are and of each the kind (0 to 3 in the order of [`PathKind`]) and the
    /// place of the node that it leads to.
    ///
    /// Whether it shows anything is not asked here: that [`Session::check`](crate::Session::check) says.
    ///
    /// # Errors
    ///
    /// [`Error::BadGraph`] where the words are none.
    pub fn from_words(words: Vec<u64>) -> Result<Graph, Error> {
        let mut reader = Reader { words: &words, place: 0 };
        let mut nodes = Vec::new();
        while reader.place < words.len() {
            nodes.push(reader.node()?);
        }
        let targets = nodes.iter().flat_map(|it| it.edges.clone().skip(1).step_by(2));
        if let Some(place) = targets.clone().find(|it| words[*it] >= nodes.len() as u64) {
            return Err(Error::BadGraph { place });
        }
        Ok(Graph { words, nodes })
    }

    /// The same graph, about the goals that have these numbers.
    pub(crate) fn about<G: Clone>(self, goals: &[G]) -> Result<Graph<G>, Error> {
        let Graph { words, nodes } = self;
        let nodes = nodes.into_iter().map(|it| {
            let Parts { goal, outcome, replies, edges } = it;
            let goal = goals.get(goal.0 as usize).ok_or(Error::UnknownGoal(goal))?.clone();
            Ok(Parts { goal, outcome, replies, edges })
        });
        Ok(Graph { nodes: nodes.collect::<Result<_, Error>>()?, words })
    }
}

impl<G> Graph<G> {
    /// The graph as numbers (see [`Graph::from_words`]), which another program may check.
    pub fn words(&self) -> &[u64] {
        &self.words
    }

    /// The same graph by the numbers that goals have now, if all have one.
    pub(crate) fn by_numbers(&self, number: impl Fn(&G) -> Option<Goal>) -> Option<Graph> {
        let mut words = self.words.clone();
        let mut nodes = Vec::with_capacity(self.len());
        for node in &self.nodes {
            let goal = number(&node.goal)?;
            // Before the replies stand the goal, the outcome and their count.
            words[node.replies.start - 3] = goal.0.into();
            nodes.push(Parts { goal, outcome: node.outcome, replies: node.replies.clone(), edges: node.edges.clone() });
        }
        Some(Graph { words, nodes })
    }

    /// How many nodes there are.
    pub fn len(&self) -> usize {
        self.nodes.len()
    }

    /// Whether there are no nodes: then it shows nothing.
    pub fn is_empty(&self) -> bool {
        self.nodes.is_empty()
    }

    /// The node of the goal that was asked.
    pub fn root(&self) -> Option<Node<'_, G>> {
        self.node(0)
    }

    /// The node at a place, from 0.
    pub fn node(&self, place: usize) -> Option<Node<'_, G>> {
        (place < self.len()).then_some(Node { graph: self, place })
    }

    /// All nodes, the root first.
    pub fn nodes(&self) -> impl ExactSizeIterator<Item = Node<'_, G>> {
        (0..self.len()).map(|place| Node { graph: self, place })
    }
}

impl<'g, G> Node<'g, G> {
    fn parts(self) -> &'g Parts<G> {
        &self.graph.nodes[self.place]
    }

    /// Its place in the graph, from 0.
    pub fn place(self) -> usize {
        self.place
    }

    /// The goal of which it is a run.
    pub fn goal(self) -> &'g G {
        &self.parts().goal
    }

    /// What the run came to.
    pub fn outcome(self) -> Outcome {
        self.parts().outcome
    }

    /// What the goal's frame was told, in order.
    pub fn replies(self) -> impl Iterator<Item = Reply> + 'g {
        self.graph.words[self.parts().replies.clone()].iter().filter_map(|it| reply(*it))
    }

    /// The questions on which the outcome rests, in the order of asking.
    pub fn edges(self) -> impl Iterator<Item = Edge<'g, G>> + 'g {
        let words = &self.graph.words[self.parts().edges.clone()];
        words.chunks_exact(2).filter_map(move |it| {
            let target = self.graph.node(usize::try_from(it[1]).ok()?)?;
            Some(Edge { kind: PathKind::of(it[0])?, target })
        })
    }
}
