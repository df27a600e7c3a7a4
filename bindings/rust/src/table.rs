//! Tables of rules, as rows.
use crate::error::Error;
use crate::ffi::{self, CandidateRow, GoalRow, QuestionRow, Rows, NOT_KNOWN};
use std::fmt;

/// A goal of a table: its place in the table's list of goals.
#[derive(Clone, Copy, Debug, PartialEq, Eq, PartialOrd, Ord, Hash)]
pub struct Goal(pub u32);

impl Goal {
    fn place(self) -> usize {
        self.0 as usize
    }
}

/// The kind of the step from a goal to one that it asks, which matters where questions go in a circle. A way round has the
/// greatest kind of its steps.
#[derive(Clone, Copy, Debug, PartialEq, Eq, PartialOrd, Ord, Hash)]
pub enum PathKind {
    /// What rests on itself does not hold, as of ordinary traits.
    Inductive,
    /// What rests on itself may hold or not.
    Unknown,
    /// What rests on itself holds, as of auto traits.
    Coinductive,
    /// What rests on itself is maybe, whatever the kinds of the other steps.
    ForcedAmbiguity,
}

impl PathKind {
    const ALL: [PathKind; 4] =
        [PathKind::Inductive, PathKind::Unknown, PathKind::Coinductive, PathKind::ForcedAmbiguity];

    /// The kind of this number, from 0 in the order of the kinds.
    pub(crate) fn of(number: u64) -> Option<PathKind> {
        PathKind::ALL.get(usize::try_from(number).ok()?).copied()
    }

    /// `i`, `u`, `c` or `f`, as texts have it.
    pub fn letter(self) -> char {
        ['i', 'u', 'c', 'f'][self as usize]
    }
}

impl fmt::Display for PathKind {
    fn fmt(&self, f: &mut fmt::Formatter<'_>) -> fmt::Result {
        f.write_str(match self {
            PathKind::Inductive => "inductive",
            PathKind::Unknown => "unknown",
            PathKind::Coinductive => "coinductive",
            PathKind::ForcedAmbiguity => "forced ambiguity",
        })
    }
}

/// A goal that is asked, and the kind of the step.
#[derive(Clone, Copy, Debug, PartialEq, Eq, Hash)]
pub struct Question<G> {
    /// The kind of the step from the goal that asks.
    pub kind: PathKind,
    /// What is asked.
    pub goal: G,
}

impl<G> Question<G> {
    /// The goal, asked inductively.
    pub fn inductive(goal: G) -> Question<G> {
        Question { kind: PathKind::Inductive, goal }
    }

    /// The goal, asked coinductively.
    pub fn coinductive(goal: G) -> Question<G> {
        Question { kind: PathKind::Coinductive, goal }
    }
}

/// One way in which a goal may hold: where all of its questions are answered yes. A goal without candidates does not hold.
#[derive(Clone, Debug, PartialEq, Eq, Hash)]
pub struct Candidate<G> {
    /// Whether it no longer counts where a candidate of the goal holds that is not marked.
    pub is_marked: bool,
    /// All that it needs.
    pub questions: Vec<Question<G>>,
}

impl<G> Candidate<G> {
    /// A candidate without a mark.
    pub fn new(questions: impl IntoIterator<Item = Question<G>>) -> Candidate<G> {
        Candidate { is_marked: false, questions: questions.into_iter().collect() }
    }

    /// The same candidate, marked.
    pub fn marked(self) -> Candidate<G> {
        Candidate { is_marked: true, ..self }
    }
}

impl<G> FromIterator<Question<G>> for Candidate<G> {
    fn from_iter<I: IntoIterator<Item = Question<G>>>(questions: I) -> Candidate<G> {
        Candidate::new(questions)
    }
}

/// Goals with their candidates, as rows of numbers that the library reads where they lie.
///
/// ```
/// use mirfodwel::{Candidate, Question, Table};
///
/// let mut table = Table::new();
/// let (list, number) = (table.add_goal()?, table.add_goal()?);
/// // A list is `Send` if its numbers are and the rest of the list is.
/// let parts = Candidate::new([Question::coinductive(number), Question::coinductive(list)]);
/// table.set_candidates(list, &[parts])?;
/// table.set_candidates(number, &[Candidate::new([])])?;
/// assert!(table.is_known(list));
/// # Ok::<(), mirfodwel::Error>(())
/// ```
#[derive(Clone, Debug, Default, PartialEq, Eq)]
pub struct Table {
    rows: Rows,
    /// The names of the first goals, each with a newline after it.
    names: Vec<u8>,
    /// Where each of these names ends.
    ends: Vec<usize>,
}

impl Table {
    /// A table without goals.
    pub fn new() -> Table {
        Table::default()
    }

    /// The table of a text's rules, which are written as `docs/PROGRAMS.md` says. Its questions are left out. Goals stand in the
    /// order in which the text first names them.
    ///
    /// # Errors
    ///
    /// [`Error::BadText`] where a line is malformed, and [`Error::NoMemory`].
    pub fn read(text: impl AsRef<[u8]>) -> Result<Table, Error> {
        match ffi::read(text.as_ref()) {
            Ok((rows, names)) => {
                let ends = names.iter().enumerate().filter(|it| *it.1 == b'\n').map(|it| it.0).collect();
                Ok(Table { rows, names, ends })
            }
            Err((status, line)) => Err(Error::of(status, format!("line {line}: bad line").into_bytes())),
        }
    }

    /// The goal that a text calls so. It takes time in proportion to the length of all names.
    pub fn goal(&self, name: &str) -> Option<Goal> {
        ffi::find(&self.names, name.as_bytes()).map(Goal)
    }

    /// What a text calls the goal; of one that was added later, nothing.
    pub fn name(&self, goal: Goal) -> Option<&str> {
        let end = *self.ends.get(goal.place())?;
        let start = goal.place().checked_sub(1).map_or(0, |before| self.ends[before] + 1);
        std::str::from_utf8(&self.names[start..end]).ok()
    }

    /// How many goals there are.
    pub fn len(&self) -> usize {
        self.rows.goals.len()
    }

    /// Whether there are no goals.
    pub fn is_empty(&self) -> bool {
        self.rows.goals.is_empty()
    }

    /// All goals, in their order.
    pub fn goals(&self) -> impl ExactSizeIterator<Item = Goal> {
        (0..self.rows.goals.len() as u32).map(Goal)
    }

    /// Whether the goal's candidates are known. As long as they are not, the goal is maybe.
    pub fn is_known(&self, goal: Goal) -> bool {
        self.rows.goals.get(goal.place()).is_some_and(|it| it.count != NOT_KNOWN)
    }

    /// The goal's candidates, if they are known.
    pub fn candidates(&self, goal: Goal) -> Option<Vec<Candidate<Goal>>> {
        let row = self.rows.goals.get(goal.place()).filter(|it| it.count != NOT_KNOWN)?;
        let rows = part(&self.rows.candidates, row.first, row.count);
        Some(rows.iter().map(|it| self.candidate(it)).collect())
    }

    fn candidate(&self, row: &CandidateRow) -> Candidate<Goal> {
        let rows = part(&self.rows.questions, row.first, row.count);
        let questions = rows.iter().filter_map(|it| {
            let kind = PathKind::of(it.kind.into())?;
            Some(Question { kind, goal: Goal(it.goal) })
        });
        Candidate { is_marked: row.is_marked != 0, questions: questions.collect() }
    }

    /// Adds a goal whose candidates are not known yet.
    ///
    /// # Errors
    ///
    /// [`Error::TooMany`] where there is no number left for it.
    pub fn add_goal(&mut self) -> Result<Goal, Error> {
        let goal = number(self.rows.goals.len())?;
        self.rows.goals.push(GoalRow { first: 0, count: NOT_KNOWN });
        Ok(Goal(goal))
    }

    /// Makes these the goal's candidates, in this order. Where it had others, their rows stay, and no goal has them.
    ///
    /// # Errors
    ///
    /// [`Error::UnknownGoal`] where the goal, or one that is asked, is none of the table, and [`Error::TooMany`]. Then nothing
    /// has changed.
    pub fn set_candidates(&mut self, goal: Goal, candidates: &[Candidate<Goal>]) -> Result<(), Error> {
        let asked = candidates.iter().flat_map(|it| &it.questions).map(|it| it.goal);
        if let Some(unknown) = asked.chain([goal]).find(|it| it.place() >= self.len()) {
            return Err(Error::UnknownGoal(unknown));
        }
        let questions: usize = candidates.iter().map(|it| it.questions.len()).sum();
        number(self.rows.questions.len() + questions)?;
        number(self.rows.candidates.len() + candidates.len())?;
        let row = GoalRow { first: number(self.rows.candidates.len())?, count: number(candidates.len())? };
        for candidate in candidates {
            let first = number(self.rows.questions.len())?;
            let count = number(candidate.questions.len())?;
            self.rows.candidates.push(CandidateRow { first, count, is_marked: candidate.is_marked.into() });
            let rows = candidate.questions.iter().map(|it| QuestionRow { kind: it.kind as u32, goal: it.goal.0 });
            self.rows.questions.extend(rows);
        }
        self.rows.goals[goal.place()] = row;
        Ok(())
    }

    /// Of each goal, by its place, whether this one can reach it by questions.
    pub(crate) fn reached(&self, goal: Goal) -> Vec<bool> {
        let Rows { goals, candidates, questions } = &self.rows;
        let mut reached = vec![false; goals.len()];
        let mut ahead = vec![goal.0];
        while let Some(goal) = ahead.pop() {
            let row = goals[goal as usize];
            if !std::mem::replace(&mut reached[goal as usize], true) && row.count != NOT_KNOWN {
                let rows = part(candidates, row.first, row.count).iter();
                ahead.extend(rows.flat_map(|it| part(questions, it.first, it.count)).map(|it| it.goal));
            }
        }
        reached
    }

    pub(crate) fn rows(&self) -> &Rows {
        &self.rows
    }

    pub(crate) fn names(&self) -> &[u8] {
        &self.names
    }
}

/// A count or a place as a row has it.
fn number(count: usize) -> Result<u32, Error> {
    u32::try_from(count).ok().filter(|it| *it != NOT_KNOWN).ok_or(Error::TooMany)
}

/// So many elements from the first on; none where there are fewer.
fn part<T>(list: &[T], first: u32, count: u32) -> &[T] {
    list.get(first as usize..).and_then(|rest| rest.get(..count as usize)).unwrap_or_default()
}
