//! Texts: rules and questions in, lines out, as the programs of these names read and write them.
//!
//! `docs/PROGRAMS.md` of the repository says what they read and write. A text may be any bytes.
//!
//! ```
//! use mirfodwel::texts;
//!
//! let lines = texts::goals("rule A = i:B\nrule B = c:A\nask 4 A\n")?;
//! assert_eq!(lines.as_str(), "A yes 2 checked\n");
//! assert!(lines.are_all_well());
//!
//! let error = texts::goals("rule A = i:B\nask A 4\n").unwrap_err();
//! assert_eq!(error.to_string(), "line 2: bad line");
//! # Ok::<(), mirfodwel::Error>(())
//! ```
use crate::error::in_lines;
use crate::ffi::{self, Status, TextCall};
use crate::Error;
use std::fmt;

/// What `explain` writes.
#[derive(Clone, Copy, Debug, PartialEq, Eq, Hash)]
pub enum Form {
    /// Indented text.
    Text,
    /// Graphviz's language.
    Graphviz,
    /// One JSON object on one line, which [`check`] reads.
    Data,
}

impl Form {
    pub(crate) fn number(self) -> u8 {
        match self {
            Form::Text => 0,
            Form::Graphviz => 1,
            Form::Data => 2,
        }
    }
}

/// Lines that answer a text.
#[derive(Clone, Debug, PartialEq, Eq, Hash)]
pub struct Lines {
    text: String,
    are_all_well: bool,
}

impl Lines {
    /// What a call wrote, where it ended with lines.
    pub(crate) fn of(status: Status, mut written: Vec<u8>) -> Result<Lines, Error> {
        if !matches!(status, ffi::DONE | ffi::FAULT) {
            return Err(Error::of(status, written));
        }
        written.shrink_to_fit();
        Ok(Lines { text: in_lines(written), are_all_well: status == ffi::DONE })
    }

    /// The lines, each with its end.
    pub fn as_str(&self) -> &str {
        &self.text
    }

    /// Whether all was answered: no question met a fault, and no graph was refused. Where this is false, the lines say which.
    pub fn are_all_well(&self) -> bool {
        self.are_all_well
    }

    /// The lines, without their ends.
    pub fn iter(&self) -> std::str::Lines<'_> {
        self.text.lines()
    }
}

impl<'l> IntoIterator for &'l Lines {
    type Item = &'l str;
    type IntoIter = std::str::Lines<'l>;

    fn into_iter(self) -> Self::IntoIter {
        self.iter()
    }
}

impl fmt::Display for Lines {
    fn fmt(&self, f: &mut fmt::Formatter<'_>) -> fmt::Result {
        f.write_str(&self.text)
    }
}

impl From<Lines> for String {
    fn from(lines: Lines) -> String {
        lines.text
    }
}

fn lines(call: TextCall, text: &[u8]) -> Result<Lines, Error> {
    let (status, written) = ffi::lines(call, text);
    Lines::of(status, written)
}

/// Answers the questions of a table of rules, and checks each answer: a line for each question.
///
/// # Errors
///
/// [`Error::BadText`] where a line is malformed, and [`Error::NoMemory`].
pub fn goals(text: impl AsRef<[u8]>) -> Result<Lines, Error> {
    lines(TextCall::Goals, text.as_ref())
}

/// The same lines as of [`goals`], without the check.
///
/// # Errors
///
/// Those of [`goals`].
pub fn answers(text: impl AsRef<[u8]>) -> Result<Lines, Error> {
    lines(TextCall::Answers, text.as_ref())
}

/// Shows of each question of a table what it came to, and why: its graph, if the checker accepted it.
///
/// # Errors
///
/// Those of [`goals`].
pub fn explain(form: Form, text: impl AsRef<[u8]>) -> Result<Lines, Error> {
    lines(TextCall::Explain(form.number()), text.as_ref())
}

/// Says of each answer in data, as [`explain`] writes it as [`Form::Data`], whether the checker accepts its graph. Nothing that
/// is read is trusted.
///
/// # Errors
///
/// [`Error::BadText`] where the data is malformed, and [`Error::NoMemory`].
pub fn check(data: impl AsRef<[u8]>) -> Result<Lines, Error> {
    lines(TextCall::Check, data.as_ref())
}

/// Says which types of a text are below which, and why one is not.
///
/// # Errors
///
/// Those of [`goals`].
pub fn subtypes(text: impl AsRef<[u8]>) -> Result<Lines, Error> {
    lines(TextCall::Subtypes, text.as_ref())
}
