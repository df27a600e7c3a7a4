//! The graph that an answer names, read node by node, and a plain check of it by the table's rules alone.
//!
//! It looks at goals and edges, and never at replies: whatever a run was told, its edges have to show its goal. The plain
//! check of `tests/sources/searches` plays each run again by its replies, as the checker does, and has to agree with it on any
//! list of nodes. Only the search for closed walks is alike, and neither check has a part of the other, on purpose.

use delegate_parts::Outcome;
use rule_tables::rules::Asking;
use rule_tables::{Candidates, Goal, Rules};
use search_parts::context::{Cx, Delegate, Node, NodeId};
use search_parts::global_cache::GlobalCache;
use search_parts::path::PathKind;
use std::alloc::Global;
use std::test::Fail;

/// More nodes than any graph of the tests has.
const MOST_NODES: usize = 64;

/// A node, by its place in a list.
#[derive(Clone, Copy)]
pub struct ShownNode {
    pub place: usize,
    pub goal: Goal,
    pub outcome: Outcome,
}

/// An edge from the node at one place to the node at another, with its question.
#[derive(Clone, Copy)]
pub struct ShownEdge {
    pub source: usize,
    pub kind: PathKind,
    pub goal: Goal,
    pub target: usize,
}

/// A graph, its root first.
#[derive(Drop)]
pub struct ShownGraph {
    pub nodes: Vec<ShownNode>,
    pub edges: Vec<ShownEdge>,
}

impl ShownGraph {
    /// The graph of the nodes that the root reaches, unless one of them is open.
    pub fn read<X, D>(
        alloc: Global,
        cache: &GlobalCache<D>,
        root: NodeId,
    ) -> Result<Option<ShownGraph>, Fail>
    where
        X: Cx<Input = Goal, Result = Outcome>,
        D: Delegate<Cx = X>,
    {
        let mut graph = ShownGraph {
            nodes: Vec::new(alloc),
            edges: Vec::new(alloc),
        };
        let mut places = vec![in alloc; root.0]?;
        for at in 0..MOST_NODES {
            let Some(place) = places.get(at).copied() else {
                return Ok(Some(graph));
            };
            let Some(node) = cache.node(NodeId(place)) else {
                return Ok(None);
            };
            graph.add(&mut places, place, node)?;
        }
        Err("more nodes than expected")?
    }

    /// Adds the node at this place, and its targets to the places that are reached.
    fn add(
        &mut self,
        places: &mut Vec<usize>,
        place: usize,
        node: &Node<Goal, Outcome>,
    ) -> Result<(), Fail> {
        self.nodes.push(ShownNode {
            place,
            goal: node.input,
            outcome: node.result,
        })?;
        for edge in &node.edges {
            self.edges.push(ShownEdge {
                source: place,
                kind: edge.kind,
                goal: edge.input,
                target: edge.target,
            })?;
            if !places.contains(&edge.target) {
                places.push(edge.target)?;
            }
        }
        Ok(())
    }

    /// What is wrong with the graph, if it is to show that the goal came to this outcome, yes or no.
    pub fn flaw(
        &self,
        rules: &Rules,
        goal: Goal,
        outcome: Outcome,
    ) -> Result<Option<&'static str>, Fail> {
        if !self.is_rooted(goal) {
            return Ok(Some("the root is of another goal"));
        }
        if self.has_other_result(outcome) {
            return Ok(Some("a node has another result"));
        }
        if self.has_stray_edge() {
            return Ok(Some("an edge leads to another goal"));
        }
        if self.has_unshown_goal(rules) {
            return Ok(Some("a goal is not shown by its edges"));
        }
        if self.has_wrong_walk(outcome)? {
            return Ok(Some("a closed walk is of the wrong kind"));
        }
        Ok(None)
    }

    fn is_rooted(&self, goal: Goal) -> bool {
        match self.nodes.first() {
            Some(root) => root.goal == goal,
            None => false,
        }
    }

    fn has_other_result(&self, outcome: Outcome) -> bool {
        for node in &self.nodes {
            if node.outcome != outcome {
                return true;
            }
        }
        false
    }

    fn has_stray_edge(&self) -> bool {
        for edge in &self.edges {
            if !self.has_node(edge.target, edge.goal) {
                return true;
            }
        }
        false
    }

    fn has_node(&self, place: usize, goal: Goal) -> bool {
        for node in &self.nodes {
            if node.place == place && node.goal == goal {
                return true;
            }
        }
        false
    }

    fn has_unshown_goal(&self, rules: &Rules) -> bool {
        for node in &self.nodes {
            if !self.is_shown(rules, *node) {
                return true;
            }
        }
        false
    }

    /// Whether the node's edges show its result: of a yes, they have all questions of some candidate, and of a
    /// no, one question of each.
    fn is_shown(&self, rules: &Rules, node: ShownNode) -> bool {
        let candidates = rules.candidates(node.goal);
        match node.outcome {
            Outcome::Yes => self.has_all_of_one(&candidates, node.place),
            Outcome::No => self.has_one_of_each(&candidates, node.place),
            Outcome::Maybe | Outcome::Overflow => false,
        }
    }

    /// Whether edges from here have all questions of some candidate.
    fn has_all_of_one(&self, candidates: &Candidates<'_>, source: usize) -> bool {
        for place in 0..candidates.count() {
            if let Some(candidate) = candidates.get(place) {
                let asked = candidate.questions();
                if self.count_edges(source, asked) == asked.len() {
                    return true;
                }
            }
        }
        false
    }

    /// Whether edges from here have a question of each candidate.
    fn has_one_of_each(&self, candidates: &Candidates<'_>, source: usize) -> bool {
        for place in 0..candidates.count() {
            if let Some(candidate) = candidates.get(place)
                && self.count_edges(source, candidate.questions()) == 0
            {
                return false;
            }
        }
        true
    }

    /// Of how many of the questions there is an edge from here.
    fn count_edges(&self, source: usize, questions: &[Asking]) -> usize {
        let mut count = 0usize;
        for asking in questions {
            if self.has_edge(source, *asking) {
                count = count.saturating_add(1);
            }
        }
        count
    }

    fn has_edge(&self, source: usize, asking: Asking) -> bool {
        for edge in &self.edges {
            if edge.source == source && edge.kind == asking.kind && edge.goal == asking.goal {
                return true;
            }
        }
        false
    }

    /// Whether the greatest kind of some closed walk is another one than the outcome's: coinductive for yes, and
    /// inductive for no. Such a walk has an edge of a greater kind, or has edges of lesser kinds alone.
    fn has_wrong_walk(&self, outcome: Outcome) -> Result<bool, Fail> {
        let kind = match outcome {
            Outcome::Yes => PathKind::Coinductive,
            Outcome::No | Outcome::Maybe | Outcome::Overflow => PathKind::Inductive,
        };
        for edge in &self.edges {
            let is_wrong = if edge.kind > kind {
                self.reaches(edge.target, edge.source, PathKind::ForcedAmbiguity)?
            } else {
                edge.kind < kind && self.reaches(edge.target, edge.source, edge.kind)?
            };
            if is_wrong {
                return Ok(true);
            }
        }
        Ok(false)
    }

    /// Whether a walk over edges of kinds up to this one leads from one place to the other.
    fn reaches(&self, from: usize, to: usize, most: PathKind) -> Result<bool, Fail> {
        let mut reached = vec![in *self.edges.allocator(); from]?;
        for at in 0..=self.edges.len() {
            let Some(place) = reached.get(at).copied() else {
                return Ok(false);
            };
            if place == to {
                return Ok(true);
            }
            self.note_targets(&mut reached, place, most)?;
        }
        Ok(false)
    }

    /// Adds the places to which an edge leads from this one.
    fn note_targets(
        &self,
        reached: &mut Vec<usize>,
        place: usize,
        most: PathKind,
    ) -> Result<(), Fail> {
        for edge in &self.edges {
            if edge.source == place && edge.kind <= most && !reached.contains(&edge.target) {
                reached.push(edge.target)?;
            }
        }
        Ok(())
    }
}
