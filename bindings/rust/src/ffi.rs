//! The exports of the library, and all that is unsafe in this crate: the declarations, which are those of `mirfodwel.h`, and a
//! safe function around each.
//!
//! What all the calls rest on: the library reads the slices that it is lent, within their lengths, and writes only what its
//! `out` parameters point to, within `room`; it keeps no pointer beyond a call but the rows of an open session; and it unwinds
//! never. A slice without elements has a dangling pointer, which the library never reads.
#![allow(unsafe_code)]

use crate::table::Table;
use std::ffi::c_void;
use std::{mem, ptr};

/// What a call says of itself, as one of the constants below.
pub(crate) type Status = u8;
pub(crate) const DONE: Status = 0;
pub(crate) const FAULT: Status = 1;
pub(crate) const BAD_INPUT: Status = 2;
pub(crate) const NO_MEMORY: Status = 4;
const NO_ROOM: Status = 5;
pub(crate) const UNKNOWN: Status = 7;

/// The count of a goal whose candidates are not known.
pub(crate) const NOT_KNOWN: u32 = u32::MAX;

/// Its candidates are `count` many from `first` on.
#[repr(C)]
#[derive(Clone, Copy, Debug, Default, PartialEq, Eq)]
pub(crate) struct GoalRow {
    pub(crate) first: u32,
    pub(crate) count: u32,
}

/// Its questions are `count` many from `first` on; `is_marked` is 0 or 1.
#[repr(C)]
#[derive(Clone, Copy, Debug, Default, PartialEq, Eq)]
pub(crate) struct CandidateRow {
    pub(crate) first: u32,
    pub(crate) count: u32,
    pub(crate) is_marked: u32,
}

/// The kind of a step by its number, and the goal by its place.
#[repr(C)]
#[derive(Clone, Copy, Debug, Default, PartialEq, Eq)]
pub(crate) struct QuestionRow {
    pub(crate) kind: u32,
    pub(crate) goal: u32,
}

/// The rows of a table, which the library reads where they lie.
#[derive(Clone, Debug, Default, PartialEq, Eq)]
pub(crate) struct Rows {
    pub(crate) goals: Vec<GoalRow>,
    pub(crate) candidates: Vec<CandidateRow>,
    pub(crate) questions: Vec<QuestionRow>,
}

#[repr(C)]
#[derive(Default)]
struct Sizes {
    goals: usize,
    candidates: usize,
    questions: usize,
    names: usize,
}

/// The first row that is not in order. A `Table` has none such.
#[repr(C)]
#[derive(Default)]
struct RowFault {
    list: u8,
    place: usize,
}

/// What a question came to.
#[repr(C)]
#[derive(Default)]
pub(crate) struct RawAnswer {
    pub(crate) started: u64,
    pub(crate) node: usize,
    pub(crate) outcome: u8,
    pub(crate) fault: u8,
    pub(crate) has_graph: bool,
    pub(crate) limits_met: bool,
}

/// Why a goal is neither yes nor no.
#[repr(C)]
#[derive(Default)]
pub(crate) struct RawReason {
    pub(crate) started: u64,
    pub(crate) by: u32,
    pub(crate) asked: u32,
    pub(crate) step: u8,
    pub(crate) has_question: bool,
    pub(crate) kind: u8,
    pub(crate) outcome: u8,
    pub(crate) fault: u8,
    pub(crate) limits_met: bool,
}

#[repr(C)]
struct RawSession {
    is_open: bool,
    inside: *mut c_void,
}

impl RawSession {
    fn closed() -> RawSession {
        RawSession { is_open: false, inside: ptr::null_mut() }
    }
}

const _: () = assert!(size_of::<GoalRow>() == 8 && size_of::<CandidateRow>() == 12 && size_of::<QuestionRow>() == 8);
const _: () = assert!(size_of::<Sizes>() == 32 && size_of::<RowFault>() == 16);
const _: () = assert!(size_of::<RawAnswer>() == 24 && size_of::<RawReason>() == 24 && size_of::<RawSession>() == 16);

unsafe extern "C" {
    fn mirfodwel_goals(text: *const u8, length: usize, out: *mut u8, room: usize, used: *mut usize) -> Status;
    fn mirfodwel_answers(text: *const u8, length: usize, out: *mut u8, room: usize, used: *mut usize) -> Status;
    fn mirfodwel_explain(
        form: u8,
        text: *const u8,
        length: usize,
        out: *mut u8,
        room: usize,
        used: *mut usize,
    ) -> Status;
    fn mirfodwel_check(text: *const u8, length: usize, out: *mut u8, room: usize, used: *mut usize) -> Status;
    fn mirfodwel_subtypes(text: *const u8, length: usize, out: *mut u8, room: usize, used: *mut usize) -> Status;
    fn mirfodwel_read(
        text: *const u8,
        length: usize,
        goals: *mut GoalRow,
        goals_room: usize,
        candidates: *mut CandidateRow,
        candidates_room: usize,
        questions: *mut QuestionRow,
        questions_room: usize,
        names: *mut u8,
        names_room: usize,
        sizes: *mut Sizes,
        line: *mut usize,
    ) -> Status;
    fn mirfodwel_find(names: *const u8, length: usize, name: *const u8, name_length: usize, goal: *mut u32) -> Status;
    fn mirfodwel_open(
        session: *mut RawSession,
        goals: *const GoalRow,
        goals_count: usize,
        candidates: *const CandidateRow,
        candidates_count: usize,
        questions: *const QuestionRow,
        questions_count: usize,
        fault: *mut RowFault,
    ) -> Status;
    fn mirfodwel_reopen(
        session: *mut RawSession,
        goals: *const GoalRow,
        goals_count: usize,
        candidates: *const CandidateRow,
        candidates_count: usize,
        questions: *const QuestionRow,
        questions_count: usize,
        fault: *mut RowFault,
    ) -> Status;
    fn mirfodwel_change(
        session: *mut RawSession,
        goals: *const GoalRow,
        goals_count: usize,
        candidates: *const CandidateRow,
        candidates_count: usize,
        questions: *const QuestionRow,
        questions_count: usize,
        fault: *mut RowFault,
    ) -> Status;
    fn mirfodwel_ask(session: *mut RawSession, depth: usize, goal: u32, answer: *mut RawAnswer) -> Status;
    fn mirfodwel_graph(session: *mut RawSession, node: usize, out: *mut u64, room: usize, used: *mut usize) -> Status;
    fn mirfodwel_check_graph(
        session: *mut RawSession,
        goal: u32,
        verdict: u8,
        words: *const u64,
        count: usize,
        is_valid: *mut bool,
    ) -> Status;
    fn mirfodwel_wanted(session: *mut RawSession, out: *mut u32, room: usize, used: *mut usize) -> Status;
    fn mirfodwel_explain_goal(
        session: *mut RawSession,
        form: u8,
        depth: usize,
        goal: u32,
        names: *const u8,
        names_length: usize,
        out: *mut u8,
        room: usize,
        used: *mut usize,
    ) -> Status;
    fn mirfodwel_cause(session: *mut RawSession, depth: usize, goal: u32, reason: *mut RawReason) -> Status;
    fn mirfodwel_last_fault(session: *mut RawSession, out: *mut u8, room: usize, used: *mut usize) -> Status;
    fn mirfodwel_held(session: *mut RawSession, nodes: *mut usize) -> Status;
    fn mirfodwel_held_bytes(session: *mut RawSession, bytes: *mut usize) -> Status;
    fn mirfodwel_close(session: *mut RawSession) -> Status;
}

/// What is done with a text.
#[derive(Clone, Copy)]
pub(crate) enum TextCall {
    Goals,
    Answers,
    Explain(u8),
    Check,
    Subtypes,
}

/// Calls with a buffer that has room for so many elements, and again with as much room as is asked for; what was written, and
/// the last status.
fn filled<T: Copy + Default>(room: usize, mut call: impl FnMut(&mut [T], &mut usize) -> Status) -> (Status, Vec<T>) {
    let (mut room, mut out) = (room, Vec::new());
    loop {
        if out.try_reserve_exact(room).is_err() {
            return (NO_MEMORY, Vec::new());
        }
        out.resize(room, T::default());
        let mut used = 0;
        let status = call(&mut out, &mut used);
        if status != NO_ROOM || used <= room {
            out.truncate(used);
            return (status, out);
        }
        (room, out) = (used, Vec::new());
    }
}

/// The lines that come of the text.
pub(crate) fn lines(call: TextCall, text: &[u8]) -> (Status, Vec<u8>) {
    // A line of an answer has at most 57 bytes, and its question's at least 8. What is longer is asked for.
    filled((text.len() / 8).saturating_mul(57).saturating_add(64), |out, used| {
        let (from, length, to, room) = (text.as_ptr(), text.len(), out.as_mut_ptr(), out.len());
        // SAFETY: the text, the buffer and `used` are borrowed for the call, are of the lengths that are told, and do not
        // overlap, as `out` and `used` are borrowed mutably.
        unsafe {
            match call {
                TextCall::Goals => mirfodwel_goals(from, length, to, room, used),
                TextCall::Answers => mirfodwel_answers(from, length, to, room, used),
                TextCall::Explain(form) => mirfodwel_explain(form, from, length, to, room, used),
                TextCall::Check => mirfodwel_check(from, length, to, room, used),
                TextCall::Subtypes => mirfodwel_subtypes(from, length, to, room, used),
            }
        }
    })
}

/// The rows of the text's rules and its names, one to a line; or the status and the line that is malformed.
pub(crate) fn read(text: &[u8]) -> Result<(Rows, Vec<u8>), (Status, usize)> {
    let (mut rows, mut names, mut sizes, mut line) = (Rows::default(), Vec::new(), Sizes::default(), 0);
    loop {
        // SAFETY: text and lists are borrowed for the call, those that are written mutably, so that none overlap; each
        // pointer comes with the length of its list, and any bytes are values of what the lists have.
        let status = unsafe {
            mirfodwel_read(
                text.as_ptr(),
                text.len(),
                rows.goals.as_mut_ptr(),
                rows.goals.len(),
                rows.candidates.as_mut_ptr(),
                rows.candidates.len(),
                rows.questions.as_mut_ptr(),
                rows.questions.len(),
                names.as_mut_ptr(),
                names.len(),
                &mut sizes,
                &mut line,
            )
        };
        let is_larger = sizes.goals > rows.goals.len()
            || sizes.candidates > rows.candidates.len()
            || sizes.questions > rows.questions.len()
            || sizes.names > names.len();
        if status != NO_ROOM || !is_larger {
            return if status == DONE { Ok((rows, names)) } else { Err((status, line)) };
        }
        rows.goals.resize(sizes.goals, GoalRow::default());
        rows.candidates.resize(sizes.candidates, CandidateRow::default());
        rows.questions.resize(sizes.questions, QuestionRow::default());
        names.resize(sizes.names, 0);
    }
}

/// The goal of this name among the names.
pub(crate) fn find(names: &[u8], name: &[u8]) -> Option<u32> {
    let mut goal = 0;
    // SAFETY: both slices are borrowed for the call, with their lengths, and `goal` is written alone.
    let status = unsafe { mirfodwel_find(names.as_ptr(), names.len(), name.as_ptr(), name.len(), &mut goal) };
    (status == DONE).then_some(goal)
}

/// A table, and a session of the library that is open over its rows or closed.
///
/// While `raw` is open the library has pointers to rows, which it reads if `has_rows`: those of `before`, if there is such a table,
/// and else those of `table`. They stay valid: `table` is lent out mutably only by `change`, which leaves an open session
/// the table that it has and lends a copy; nothing in a `Table` changes while it is shared; the rows lie on the heap, where they
/// stay when the value moves; and the session is closed before the tables are dropped.
pub(crate) struct Opened {
    raw: RawSession,
    /// Else they may be gone, and an open session is only opened again or closed, which reads none.
    has_rows: bool,
    /// The table as it was before it was changed, until an open session goes over to the changed one.
    before: Option<Table>,
    table: Table,
}

// SAFETY: what `inside` points to belongs to this value alone; the library has no state of its own beside it, and none that
// belongs to a thread, and its heap is that of C, which may give back in one thread what another took. Each call borrows the
// value mutably, so there is one at a time. It is not `Sync`: a raw pointer is not, and nothing says otherwise.
unsafe impl Send for Opened {}

impl Opened {
    pub(crate) fn closed(table: Table) -> Opened {
        Opened { raw: RawSession::closed(), has_rows: false, before: None, table }
    }

    /// Whether the nodes that it has stay, once it is open over the rows.
    pub(crate) fn keeps_nodes(&self) -> bool {
        self.raw.is_open && self.has_rows
    }

    pub(crate) fn table(&self) -> &Table {
        &self.table
    }

    /// Opens a session over the rows, if none is: one that has other rows goes over to these.
    pub(crate) fn open(&mut self) -> Result<(), Status> {
        let open = match (self.raw.is_open, self.has_rows, &self.before) {
            (false, ..) => mirfodwel_open,
            (true, false, _) => mirfodwel_reopen,
            (true, true, Some(_)) => mirfodwel_change,
            (true, true, None) => return Ok(()),
        };
        let rows = self.table.rows();
        let mut fault = RowFault::default();
        // SAFETY: the handle is all zero, and is opened; or only the library has written it, and it is opened again, or goes over
        // from rows that are still there. The new rows are lent with their lengths, and stay where they are, and what they are,
        // while it is open over them (see `Opened`).
        let status = unsafe {
            open(
                &mut self.raw,
                rows.goals.as_ptr(),
                rows.goals.len(),
                rows.candidates.as_ptr(),
                rows.candidates.len(),
                rows.questions.as_ptr(),
                rows.questions.len(),
                &mut fault,
            )
        };
        if status != DONE {
            return Err(status);
        }
        (self.has_rows, self.before) = (true, None);
        Ok(())
    }

    /// Lends the table to be changed. A session that is open over it keeps it as it was, until it goes over to the changed one.
    pub(crate) fn change(&mut self) -> &mut Table {
        if self.keeps_nodes() && self.before.is_none() {
            let changed = self.table.clone();
            self.before = Some(mem::replace(&mut self.table, changed));
        }
        &mut self.table
    }

    /// Gives the table back for another one, of which nothing is known. An open session has no rows then.
    pub(crate) fn replace(&mut self, table: Table) -> Table {
        (self.has_rows, self.before) = (false, None);
        mem::replace(&mut self.table, table)
    }

    pub(crate) fn ask(&mut self, depth: usize, goal: u32) -> (Status, RawAnswer) {
        let mut answer = RawAnswer::default();
        // SAFETY: the handle is zero or one that the library has opened, over rows that are still lent; `answer` is written
        // alone, and what the library writes to its `bool`s are `bool`s.
        let status = unsafe { mirfodwel_ask(&mut self.raw, depth, goal, &mut answer) };
        (status, answer)
    }

    pub(crate) fn graph(&mut self, node: usize) -> (Status, Vec<u64>) {
        filled(256, |out, used| {
            // SAFETY: the handle is as in `ask`; the buffer has the length that is told.
            unsafe { mirfodwel_graph(&mut self.raw, node, out.as_mut_ptr(), out.len(), used) }
        })
    }

    pub(crate) fn check_graph(&mut self, goal: u32, verdict: u8, words: &[u64]) -> (Status, bool) {
        let mut is_valid = false;
        // SAFETY: the handle is as in `ask`; the words are borrowed for the call, and `is_valid` is written alone.
        let status =
            unsafe { mirfodwel_check_graph(&mut self.raw, goal, verdict, words.as_ptr(), words.len(), &mut is_valid) };
        (status, is_valid)
    }

    pub(crate) fn wanted(&mut self) -> (Status, Vec<u32>) {
        filled(64, |out, used| {
            // SAFETY: the handle is as in `ask`; the buffer has the length that is told.
            unsafe { mirfodwel_wanted(&mut self.raw, out.as_mut_ptr(), out.len(), used) }
        })
    }

    /// In the names of the table, or in these.
    pub(crate) fn explain(&mut self, form: u8, depth: usize, goal: u32, names: Option<&[u8]>) -> (Status, Vec<u8>) {
        let names = names.unwrap_or(self.table.names());
        filled(4096, |out, used| {
            let (named, length, to, room) = (names.as_ptr(), names.len(), out.as_mut_ptr(), out.len());
            // SAFETY: the handle is as in `ask`; names and buffer are borrowed for the call, and do not overlap.
            unsafe { mirfodwel_explain_goal(&mut self.raw, form, depth, goal, named, length, to, room, used) }
        })
    }

    pub(crate) fn cause(&mut self, depth: usize, goal: u32) -> (Status, RawReason) {
        let mut reason = RawReason::default();
        // SAFETY: the handle is as in `ask`; `reason` is written alone, and what the library writes to its `bool`s are `bool`s.
        let status = unsafe { mirfodwel_cause(&mut self.raw, depth, goal, &mut reason) };
        (status, reason)
    }

    pub(crate) fn last_fault(&mut self) -> (Status, Vec<u8>) {
        filled(128, |out, used| {
            // SAFETY: the handle is as in `ask`; the buffer has the length that is told.
            unsafe { mirfodwel_last_fault(&mut self.raw, out.as_mut_ptr(), out.len(), used) }
        })
    }

    pub(crate) fn held(&mut self) -> (Status, usize) {
        let mut nodes = 0;
        // SAFETY: the handle is as in `ask`, and `nodes` is written alone.
        let status = unsafe { mirfodwel_held(&mut self.raw, &mut nodes) };
        (status, nodes)
    }

    pub(crate) fn held_bytes(&mut self) -> (Status, usize) {
        let mut bytes = 0;
        // SAFETY: the handle is as in `ask`, and `bytes` is written alone.
        let status = unsafe { mirfodwel_held_bytes(&mut self.raw, &mut bytes) };
        (status, bytes)
    }
}

impl Drop for Opened {
    fn drop(&mut self) {
        if self.raw.is_open {
            // SAFETY: the handle is open, and only the library has written it.
            let _status = unsafe { mirfodwel_close(&mut self.raw) };
        }
    }
}
