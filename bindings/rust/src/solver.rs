//! Goals of a program's own, whose candidates are given on demand.
use crate::error::Error;
use crate::graph::Graph;
use crate::session::{Answer, NodeId, Outcome, Session};
use crate::table::{Candidate, Goal, Question, Table};
use crate::texts::{Form, Lines};
use std::collections::{HashMap, VecDeque};
use std::fmt::{self, Display};
use std::hash::Hash;

/// What goals there are, and when they hold. There may be goals without end.
///
/// Goals that are equal are one goal, and its candidates are asked for once: what a goal leads to is always the same.
pub trait Rules {
    /// What can hold or not.
    type Goal: Eq + Hash + Clone;

    /// The goal's candidates: it holds where all questions of any of them are answered yes.
    fn candidates(&self, goal: &Self::Goal) -> Vec<Candidate<Self::Goal>>;
}

impl<R: Rules + ?Sized> Rules for &R {
    type Goal = R::Goal;

    fn candidates(&self, goal: &R::Goal) -> Vec<Candidate<R::Goal>> {
        (**self).candidates(goal)
    }
}

/// Answers goals of [`Rules`].
///
/// It works in rounds: the candidates of some goals are known, and any other goal is maybe. If so the answer is yes or no, it
/// is right whatever else there is to know. If not, the goals that the search wanted to know are made known, with some that
/// these ask, and the goal is asked again, until nothing more is wanted or a limit is met. What became known stays known.
///
/// ```
/// use mirfodwel::{Candidate, Outcome, Question, Rules, Solver};
///
/// /// Is there a way from this number to 1, by halves and by thrice the number and one?
/// struct Ways;
///
/// impl Rules for Ways {
///     type Goal = u64;
///
///     fn candidates(&self, number: &u64) -> Vec<Candidate<u64>> {
///         match *number {
///             1 => vec![Candidate::new([])],
///             even if even % 2 == 0 => vec![Candidate::new([Question::inductive(even / 2)])],
///             odd => vec![Candidate::new([Question::inductive(odd * 3 + 1)])],
///         }
///     }
/// }
///
/// let mut solver = Solver::new(Ways);
/// let answer = solver.ask(&27, 200)?;
/// assert_eq!(answer.outcome, Outcome::Yes);
/// let graph = solver.graph(answer.node.unwrap())?;
/// assert_eq!(graph.nodes().map(|node| node.goal()).max(), Some(&9232));
/// # Ok::<(), mirfodwel::Error>(())
/// ```
pub struct Solver<R: Rules> {
    rules: R,
    numbered: Numbered<R::Goal>,
    known: usize,
    most: usize,
    /// How many goals may become known in the first rounds.
    first: usize,
    rounds: usize,
    session: Session,
}

impl<R: Rules> Solver<R> {
    /// A solver that knows no goal yet, and a million at most.
    pub fn new(rules: R) -> Solver<R> {
        let numbered = Numbered { goals: Vec::new(), numbers: HashMap::new() };
        Solver {
            rules,
            numbered,
            known: 0,
            most: 1_000_000,
            first: 64,
            rounds: 0,
            session: Session::closed(Table::new()),
        }
    }

    /// The same solver, which makes this many goals known at most.
    pub fn with_most_goals(self, most: usize) -> Solver<R> {
        Solver { most, ..self }
    }

    /// The same solver, which makes this many goals known in its first round, and 64 where this is not called. Later rounds may
    /// make as many more known as there are. A small number is for rules whose candidates take long to find.
    pub fn with_first_goals(self, first: usize) -> Solver<R> {
        Solver { first, ..self }
    }

    /// The rules.
    pub fn rules(&self) -> &R {
        &self.rules
    }

    /// How many goals are known.
    pub fn known_goals(&self) -> usize {
        self.known
    }

    /// How many rounds the last question took.
    pub fn rounds(&self) -> usize {
        self.rounds
    }

    /// Asks whether the goal holds, with this many goals nested at most below it. Where goals may be without end, this is how
    /// deep they are followed.
    ///
    /// The answer's runs are those of all rounds, and a limit was met, too, where more goals were wanted than may be known.
    /// After a round in which goals became known all rows are looked at once, and what rests on goals that were known stays stored.
    ///
    /// # Errors
    ///
    /// [`Error::Fault`], [`Error::TooMany`] and [`Error::NoMemory`].
    pub fn ask(&mut self, goal: &R::Goal, depth: usize) -> Result<Answer, Error> {
        let root = self.number(goal)?;
        if !self.session.table().is_known(root) {
            self.learn(vec![root])?;
        }
        let mut runs = 0;
        self.rounds = 0;
        loop {
            let answer = self.session.ask(root, depth)?;
            self.rounds += 1;
            runs += answer.runs;
            let wanted = if answer.outcome.is_definite() { Vec::new() } else { self.wanted(root)? };
            let is_cut = !wanted.is_empty() && self.known >= self.most;
            if wanted.is_empty() || is_cut {
                return Ok(Answer { runs, limits_met: answer.limits_met || is_cut, ..answer });
            }
            self.learn(wanted)?;
        }
    }

    /// The graph of an answer's node, which shows the answer.
    ///
    /// # Errors
    ///
    /// [`Error::UnknownNode`] where a later question made goals known that the answer's goal can reach, as that forgets its nodes,
    /// and [`Error::NoMemory`].
    pub fn graph(&mut self, node: NodeId) -> Result<Graph<R::Goal>, Error> {
        self.session.graph(node)?.about(&self.numbered.goals)
    }

    /// Whether the graph shows by the rules that the goal has this outcome. Only goals that are known here are in such a graph;
    /// it may come from another solver.
    ///
    /// # Errors
    ///
    /// [`Error::NoMemory`].
    pub fn check(&mut self, goal: &R::Goal, outcome: Outcome, graph: &Graph<R::Goal>) -> Result<bool, Error> {
        let numbers = &self.numbered.numbers;
        let (Some(goal), Some(graph)) = (numbers.get(goal), graph.by_numbers(|it| numbers.get(it).copied())) else {
            return Ok(false);
        };
        self.session.check(*goal, outcome, &graph)
    }

    /// The goal's number. A goal that has none gets one.
    fn number(&mut self, goal: &R::Goal) -> Result<Goal, Error> {
        match self.numbered.numbers.get(goal) {
            Some(number) => Ok(*number),
            None => self.session.change(|table| self.numbered.number(table, goal)),
        }
    }

    /// The goals that are not known, and that were asked for below this one. What others asked for is wanted by them.
    fn wanted(&mut self, root: Goal) -> Result<Vec<Goal>, Error> {
        let mut wanted = self.session.wanted()?;
        if !wanted.is_empty() {
            let reached = self.session.table().reached(root);
            wanted.retain(|it| reached[it.0 as usize]);
        }
        Ok(wanted)
    }

    /// Makes goals known: those that are wanted, and as long as no more become known than were before, those that these ask.
    fn learn(&mut self, wanted: Vec<Goal>) -> Result<(), Error> {
        let Solver { rules, numbered, known, most, first, session, .. } = self;
        let enough = (*known + wanted.len().max(*known).max(*first)).min(*most);
        session.change(|table| {
            let mut found = VecDeque::from(wanted);
            while *known < enough {
                let Some(goal) = found.pop_front() else { break };
                if !table.is_known(goal) {
                    let candidates = rules.candidates(numbered.goal(goal)?);
                    let candidates = numbered.candidates(table, &candidates)?;
                    table.set_candidates(goal, &candidates)?;
                    *known += 1;
                    found.extend(candidates.iter().flat_map(|it| &it.questions).map(|it| it.goal));
                }
            }
            Ok(())
        })
    }
}

impl<R: Rules> Solver<R>
where
    R::Goal: Display,
{
    /// Shows of the goal what it comes to, and why, in the goals' own words: [`Solver::ask`] makes known what there is to know,
    /// and then the goal is asked anew, apart from all that is known. As [`Form::Data`] goals are told by numbers.
    ///
    /// # Errors
    ///
    /// Those of [`Solver::ask`].
    pub fn explain(&mut self, form: Form, goal: &R::Goal, depth: usize) -> Result<Lines, Error> {
        self.ask(goal, depth)?;
        let root = self.number(goal)?;
        let names: String = self.numbered.goals.iter().map(|it| it.to_string().replace('\n', " ") + "\n").collect();
        self.session.explain_by(form, root, depth, Some(names.as_bytes()))
    }
}

impl<R: Rules> fmt::Debug for Solver<R> {
    fn fmt(&self, f: &mut fmt::Formatter<'_>) -> fmt::Result {
        f.debug_struct("Solver").field("known_goals", &self.known).finish_non_exhaustive()
    }
}

/// The goals by their numbers in a table, and the numbers by their goals.
struct Numbered<G> {
    goals: Vec<G>,
    numbers: HashMap<G, Goal>,
}

impl<G: Eq + Hash + Clone> Numbered<G> {
    fn goal(&self, number: Goal) -> Result<&G, Error> {
        self.goals.get(number.0 as usize).ok_or(Error::UnknownGoal(number))
    }

    /// The goal's number. A goal that has none gets one, and is not known in the table.
    fn number(&mut self, table: &mut Table, goal: &G) -> Result<Goal, Error> {
        if let Some(number) = self.numbers.get(goal) {
            return Ok(*number);
        }
        let number = table.add_goal()?;
        self.goals.push(goal.clone());
        self.numbers.insert(goal.clone(), number);
        Ok(number)
    }

    /// The same candidates by numbers.
    fn candidates(&mut self, table: &mut Table, candidates: &[Candidate<G>]) -> Result<Vec<Candidate<Goal>>, Error> {
        let mut numbered = Vec::with_capacity(candidates.len());
        for candidate in candidates {
            let mut questions = Vec::with_capacity(candidate.questions.len());
            for question in &candidate.questions {
                questions.push(Question { kind: question.kind, goal: self.number(table, &question.goal)? });
            }
            numbered.push(Candidate { is_marked: candidate.is_marked, questions });
        }
        Ok(numbered)
    }
}
