//! What can go wrong.
use crate::ffi::{self, Status};
use crate::Goal;
use std::fmt;

/// Why a call has no answer. No call panics for what it is given, and after each of these the session that was called is as
/// usable as before.
#[derive(Clone, Debug, PartialEq, Eq)]
#[non_exhaustive]
pub enum Error {
    /// A text or data is malformed; nothing was asked. The reason names the line or the byte, as `line 3: bad line`.
    BadText {
        /// The reason, in the words of the programs.
        reason: String,
    },
    /// Numbers are no graph: what stands at this place is none of a graph, or the numbers end too early there.
    BadGraph {
        /// The place among the numbers, from 0.
        place: usize,
    },
    /// A question met a fault. What was known is still known.
    Fault {
        /// What ended the question.
        cause: Cause,
        /// The fault in words, of which there may be none.
        reason: String,
    },
    /// Memory was out.
    NoMemory,
    /// The table has no such goal.
    UnknownGoal(Goal),
    /// The session has no such node, or was opened anew since it had.
    UnknownNode,
    /// A table has fewer than 4,294,967,295 goals, and no more candidates, questions, or either of one goal or candidate.
    TooMany,
    /// The library answered what it should not: it does not fit this crate.
    Unexpected {
        /// The number that it answered.
        status: u8,
    },
}

/// What ended a question without an answer.
#[derive(Clone, Copy, Debug, PartialEq, Eq)]
#[non_exhaustive]
pub enum Cause {
    /// A growth of memory was refused.
    Memory,
    /// A goal came to another result than is stored for it. The two are never a yes and a no.
    Conflict,
    /// The same of a goal that was worked out once more, to be compared.
    Validation,
    /// A request about candidates came out of order.
    Protocol,
}

impl Error {
    /// The error of a status, where `reason` is what was written beside it.
    pub(crate) fn of(status: Status, reason: Vec<u8>) -> Error {
        match status {
            ffi::BAD_INPUT => Error::BadText { reason: in_words(reason) },
            ffi::NO_MEMORY => Error::NoMemory,
            _ => Error::Unexpected { status },
        }
    }
}

/// What the library wrote, as text: without the end of the last line.
pub(crate) fn in_words(written: Vec<u8>) -> String {
    let mut text = in_lines(written);
    text.truncate(text.trim_end_matches('\n').len());
    text
}

/// What the library wrote, as text. It is ASCII but for what it was given.
pub(crate) fn in_lines(written: Vec<u8>) -> String {
    String::from_utf8(written).unwrap_or_else(|it| String::from_utf8_lossy(it.as_bytes()).into_owned())
}

impl fmt::Display for Cause {
    fn fmt(&self, f: &mut fmt::Formatter<'_>) -> fmt::Result {
        f.write_str(match self {
            Cause::Memory => "memory",
            Cause::Conflict => "conflict",
            Cause::Validation => "validation",
            Cause::Protocol => "protocol",
        })
    }
}

impl fmt::Display for Error {
    fn fmt(&self, f: &mut fmt::Formatter<'_>) -> fmt::Result {
        match self {
            Error::BadText { reason } => f.write_str(reason),
            Error::BadGraph { place } => write!(f, "no graph: the number at {place} is none of one"),
            Error::Fault { cause, reason } if reason.is_empty() => write!(f, "fault {cause}"),
            Error::Fault { cause, reason } => write!(f, "fault {cause}: {reason}"),
            Error::NoMemory => f.write_str("memory is out"),
            Error::UnknownGoal(goal) => write!(f, "there is no goal {}", goal.0),
            Error::UnknownNode => f.write_str("there is no such node, or no longer"),
            Error::TooMany => f.write_str("more rows than a table can have"),
            Error::Unexpected { status } => write!(f, "the library does not fit: status {status}"),
        }
    }
}

impl std::error::Error for Error {}
