//! Sessions: goals that are asked one by one, over what is known already.
use crate::error::{in_words, Cause, Error};
use crate::ffi::{self, Opened, RawAnswer, Status};
use crate::graph::Graph;
use crate::reason::Reason;
use crate::table::{Goal, Table};
use crate::texts::{Form, Lines};
use std::fmt;
use std::sync::atomic::{AtomicU64, Ordering};

/// What a goal is answered with.
#[derive(Clone, Copy, Debug, PartialEq, Eq, Hash)]
pub enum Outcome {
    /// It holds, and a graph shows why.
    Yes,
    /// It does not hold, and a graph shows why not.
    No,
    /// Neither was found.
    Maybe,
    /// Neither was found, as the depth or the most runs of a goal was met.
    Overflow,
}

impl Outcome {
    const ALL: [Outcome; 4] = [Outcome::Yes, Outcome::No, Outcome::Maybe, Outcome::Overflow];

    /// The outcome of this number, from 0 in the order of the outcomes.
    pub(crate) fn of(number: u64) -> Option<Outcome> {
        Outcome::ALL.get(usize::try_from(number).ok()?).copied()
    }

    /// Whether it is yes or no.
    pub fn is_definite(self) -> bool {
        matches!(self, Outcome::Yes | Outcome::No)
    }
}

impl fmt::Display for Outcome {
    fn fmt(&self, f: &mut fmt::Formatter<'_>) -> fmt::Result {
        f.write_str(match self {
            Outcome::Yes => "yes",
            Outcome::No => "no",
            Outcome::Maybe => "maybe",
            Outcome::Overflow => "overflow",
        })
    }
}

/// A node that a session has, until it is opened again, or its goal is forgotten.
#[derive(Clone, Copy, Debug, PartialEq, Eq, Hash)]
pub struct NodeId {
    session: u64,
    node: usize,
}

/// What a question came to.
#[derive(Clone, Copy, Debug, PartialEq, Eq)]
#[non_exhaustive]
pub struct Answer {
    /// Whether the goal holds.
    pub outcome: Outcome,
    /// How many runs of goals were started for it: none where a stored result answered.
    pub runs: u64,
    /// Whether a limit was met: the depth, the most runs of a goal, or the most goals of a [`Solver`](crate::Solver). A greater
    /// one may say more.
    pub limits_met: bool,
    /// The root of the graph that shows a yes or a no.
    pub node: Option<NodeId>,
}

/// A table with what is known of its goals so far.
///
/// It owns its table, which the library reads where it lies. It may be handed to another thread, but is one thread's at a time.
/// Nodes of answers stay as long as what they rest on does not change; dropping it gives back all memory.
///
/// ```
/// use mirfodwel::{Outcome, Session, Table};
///
/// let table = Table::read("rule A = i:B\nrule B = c:A\n")?;
/// let goal = table.goal("A").unwrap();
/// let mut session = Session::open(table)?;
/// let answer = session.ask(goal, 4)?;
/// assert_eq!((answer.outcome, answer.runs), (Outcome::Yes, 2));
/// assert_eq!(session.ask(goal, 4)?.runs, 0); // it is stored
///
/// let graph = session.graph(answer.node.unwrap())?;
/// assert!(session.check(goal, answer.outcome, &graph)?);
/// let names: Vec<_> = graph.nodes().filter_map(|node| session.table().name(*node.goal())).collect();
/// assert_eq!(names, ["A", "B"]);
/// # Ok::<(), mirfodwel::Error>(())
/// ```
pub struct Session {
    opened: Opened,
    number: u64,
}

/// The number of the next session that is opened, by which nodes of another one are told apart.
static NEXT: AtomicU64 = AtomicU64::new(0);

impl Session {
    /// A session over the table, in which nothing is known.
    ///
    /// # Errors
    ///
    /// [`Error::NoMemory`].
    pub fn open(table: Table) -> Result<Session, Error> {
        let mut session = Session::closed(table);
        session.opened()?;
        Ok(session)
    }

    /// One that is opened by the first call that wants it.
    pub(crate) fn closed(table: Table) -> Session {
        Session { opened: Opened::closed(table), number: 0 }
    }

    fn opened(&mut self) -> Result<&mut Opened, Error> {
        let keeps_nodes = self.opened.keeps_nodes();
        self.opened.open().map_err(|status| Error::of(status, Vec::new()))?;
        if !keeps_nodes {
            self.number = NEXT.fetch_add(1, Ordering::Relaxed);
        }
        Ok(&mut self.opened)
    }

    /// The table.
    pub fn table(&self) -> &Table {
        self.opened.table()
    }

    /// Asks whether the goal holds, with this many goals nested at most below it. With as many as the table has goals no
    /// question is refused.
    ///
    /// # Errors
    ///
    /// [`Error::UnknownGoal`] where the table has no such goal, and [`Error::Fault`].
    pub fn ask(&mut self, goal: Goal, depth: usize) -> Result<Answer, Error> {
        let opened = self.opened()?;
        match opened.ask(depth, goal.0) {
            (ffi::DONE, raw) => self.answer(&raw),
            (ffi::FAULT, raw) => Err(fault(raw.fault, in_words(opened.last_fault().1))),
            (status, _) => Err(of_goal(status, goal)),
        }
    }

    fn answer(&self, raw: &RawAnswer) -> Result<Answer, Error> {
        let RawAnswer { started: runs, node, outcome, has_graph, limits_met, .. } = *raw;
        let outcome = Outcome::of(outcome.into()).ok_or(Error::Unexpected { status: outcome })?;
        let node = has_graph.then_some(NodeId { session: self.number, node });
        Ok(Answer { outcome, runs, limits_met, node })
    }

    /// The graph of an answer's node, which shows the answer.
    ///
    /// # Errors
    ///
    /// [`Error::UnknownNode`] where this session has no such node, or no longer has it since the table was changed, or another
    /// one, and [`Error::NoMemory`].
    pub fn graph(&mut self, node: NodeId) -> Result<Graph, Error> {
        self.opened()?;
        if node.session != self.number {
            return Err(Error::UnknownNode);
        }
        match self.opened.graph(node.node) {
            (ffi::DONE, words) => Graph::from_words(words),
            (ffi::UNKNOWN, _) => Err(Error::UnknownNode),
            (status, _) => Err(Error::of(status, Vec::new())),
        }
    }

    /// Whether the graph shows by the table's rules that the goal has this outcome. The checker is proved by itself, and trusts
    /// nothing of the graph, which may come from anywhere. No graph shows a maybe or an overflow.
    ///
    /// # Errors
    ///
    /// [`Error::UnknownGoal`] where the table has no such goal, and [`Error::NoMemory`].
    pub fn check(&mut self, goal: Goal, outcome: Outcome, graph: &Graph) -> Result<bool, Error> {
        let verdict = match outcome {
            Outcome::Yes => 0,
            Outcome::No => 1,
            Outcome::Maybe | Outcome::Overflow => return Ok(false),
        };
        match self.opened()?.check_graph(goal.0, verdict, graph.words()) {
            (ffi::DONE, is_valid) => Ok(is_valid),
            (status, _) => Err(of_goal(status, goal)),
        }
    }

    /// The goals that are not known and that questions so far have asked, in rising order.
    ///
    /// # Errors
    ///
    /// [`Error::NoMemory`].
    pub fn wanted(&mut self) -> Result<Vec<Goal>, Error> {
        match self.opened()?.wanted() {
            (ffi::DONE, goals) => Ok(goals.into_iter().map(Goal).collect()),
            (status, _) => Err(Error::of(status, Vec::new())),
        }
    }

    /// Asks the goal anew, apart from all that is known, and shows what it came to and why, in the names of the table; goals
    /// without a name, and as [`Form::Data`] all goals, are told by their numbers. Where it met a fault, the lines tell that. All
    /// rows are read for it.
    ///
    /// # Errors
    ///
    /// [`Error::UnknownGoal`] where the table has no such goal, and [`Error::NoMemory`].
    pub fn explain(&mut self, form: Form, goal: Goal, depth: usize) -> Result<Lines, Error> {
        self.explain_by(form, goal, depth, None)
    }

    /// The same in these names, if there are such, each with a newline after it.
    pub(crate) fn explain_by(
        &mut self,
        form: Form,
        goal: Goal,
        depth: usize,
        names: Option<&[u8]>,
    ) -> Result<Lines, Error> {
        match self.opened()?.explain(form.number(), depth, goal.0, names) {
            (ffi::UNKNOWN, _) => Err(Error::UnknownGoal(goal)),
            (status, written) => Lines::of(status, written),
        }
    }

    /// Asks the goal anew, apart from all that is known, and says why it is neither yes nor no, if it is neither. This takes up to
    /// a third more instructions than [`Session::ask`] where nothing is known.
    ///
    /// ```
    /// use mirfodwel::{Session, Table, Why};
    ///
    /// let mut session = Session::open(Table::read("rule A = i:B\nrule B = i:C\nrule C =\n")?)?;
    /// let [a, b, c] = ["A", "B", "C"].map(|name| session.table().goal(name).unwrap());
    /// let reason = session.cause(a, 1)?;
    /// let cut = reason.cut.unwrap();
    /// assert_eq!((reason.why, cut.by, cut.asked), (Some(Why::NoDepth), b, c));
    /// # Ok::<(), mirfodwel::Error>(())
    /// ```
    ///
    /// # Errors
    ///
    /// [`Error::UnknownGoal`] where the table has no such goal, and [`Error::Fault`].
    pub fn cause(&mut self, goal: Goal, depth: usize) -> Result<Reason, Error> {
        match self.opened()?.cause(depth, goal.0) {
            (ffi::DONE, raw) => Reason::of(&raw),
            (ffi::FAULT, raw) => Err(fault(raw.fault, String::new())),
            (status, _) => Err(of_goal(status, goal)),
        }
    }

    /// How many nodes of graphs are held.
    ///
    /// # Errors
    ///
    /// [`Error::NoMemory`] where the session goes over to another table by this call, and memory is out.
    pub fn held_nodes(&mut self) -> Result<usize, Error> {
        match self.opened()?.held() {
            (ffi::DONE, nodes) => Ok(nodes),
            (status, _) => Err(Error::of(status, Vec::new())),
        }
    }

    /// How many bytes of the heap the session holds, without its table: as `mirfodwel_held_bytes` of the header says. The time
    /// grows with what it knows.
    ///
    /// # Errors
    ///
    /// As of [`Session::held_nodes`].
    pub fn held_bytes(&mut self) -> Result<usize, Error> {
        match self.opened()?.held_bytes() {
            (ffi::DONE, bytes) => Ok(bytes),
            (status, _) => Err(Error::of(status, Vec::new())),
        }
    }

    /// Lets the table be changed, also by putting another one in its place. What is known of goals that this does not concern
    /// stays, with their nodes: of those whose candidates are as they were, as are those of all goals that they can reach. All
    /// else is forgotten.
    ///
    /// The table is copied, and the next call compares the two and goes over, so several changes at a time take less time
    /// than one after the other. Where memory is out for that, the call says [`Error::NoMemory`], and later ones try again: till
    /// then nothing is forgotten.
    ///
    /// ```
    /// use mirfodwel::{Outcome, Session, Table};
    ///
    /// let mut session = Session::open(Table::read("rule A = i:B\nrule B =\nrule C = i:D\nrule D =\n")?)?;
    /// let [a, b, c] = ["A", "B", "C"].map(|name| session.table().goal(name).unwrap());
    /// let (one, other) = (session.ask(a, 4)?, session.ask(c, 4)?);
    /// assert_eq!((one.outcome, other.outcome), (Outcome::Yes, Outcome::Yes));
    ///
    /// session.change(|table| table.set_candidates(b, &[]))?; // B holds no longer
    /// assert_eq!(session.ask(a, 4)?.outcome, Outcome::No);
    /// assert_eq!(session.ask(c, 4)?.runs, 0); // this is stored still
    /// assert!(session.graph(other.node.unwrap()).is_ok());
    /// # Ok::<(), mirfodwel::Error>(())
    /// ```
    pub fn change<T>(&mut self, change: impl FnOnce(&mut Table) -> T) -> T {
        change(self.opened.change())
    }

    /// Makes it a session over another table, as good as a new one, with the memory that it has: many small tables take less
    /// time so than with a session each. The table so far is given back. To keep what is known, [`Session::change`] it.
    pub fn reopen(&mut self, table: Table) -> Table {
        self.opened.replace(table)
    }

    /// Closes the session, and gives the table back.
    pub fn close(mut self) -> Table {
        self.opened.replace(Table::new())
    }
}

impl fmt::Debug for Session {
    fn fmt(&self, f: &mut fmt::Formatter<'_>) -> fmt::Result {
        f.debug_struct("Session").field("goals", &self.table().len()).finish_non_exhaustive()
    }
}

fn of_goal(status: Status, goal: Goal) -> Error {
    match status {
        ffi::UNKNOWN => Error::UnknownGoal(goal),
        _ => Error::of(status, Vec::new()),
    }
}

fn fault(number: u8, reason: String) -> Error {
    let cause = match number {
        1 => Cause::Memory,
        2 => Cause::Conflict,
        3 => Cause::Validation,
        4 => Cause::Protocol,
        status => return Error::Unexpected { status },
    };
    Error::Fault { cause, reason }
}
