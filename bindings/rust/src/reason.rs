//! Why goals are neither yes nor no.
use crate::error::Error;
use crate::ffi::RawReason;
use crate::session::Outcome;
use crate::table::{Goal, PathKind};
use std::fmt;

/// What a goal came to as it was asked anew, and why that is neither yes nor no, if it is neither.
#[derive(Clone, Copy, Debug, PartialEq, Eq)]
#[non_exhaustive]
pub struct Reason {
    /// Whether the goal holds. Where earlier questions had less depth, this may be more than what the session answers.
    pub outcome: Outcome,
    /// How many runs of goals were started for it.
    pub runs: u64,
    /// Whether a limit was met: the depth, or the most runs of a goal.
    pub limits_met: bool,
    /// Why it is neither yes nor no.
    pub why: Option<Why>,
    /// The question at which the goal was cut off first. There is none of a goal that had its most runs itself.
    pub cut: Option<Cut>,
}

/// A question that a goal asked.
#[derive(Clone, Copy, Debug, PartialEq, Eq, Hash)]
pub struct Cut {
    /// The goal that asked: one of its candidates has the question.
    pub by: Goal,
    /// The kind of the step.
    pub kind: PathKind,
    /// The goal that was asked.
    pub asked: Goal,
}

/// Why a goal is neither yes nor no.
#[derive(Clone, Copy, Debug, PartialEq, Eq, Hash)]
#[non_exhaustive]
pub enum Why {
    /// The goal that asked had no depth left.
    NoDepth,
    /// It had none, or the asked goal had its most runs before.
    NoDepthOrRuns,
    /// The asked goal had its most runs, or the goal itself, where no question is named.
    MostRuns,
    /// The question closed a cycle of unknown kind.
    UnknownCycle,
    /// The question closed a cycle of forced ambiguity.
    ForcedCycle,
    /// The candidates of the goal that asked are not known, so that no depth would help.
    NotKnown,
    /// The asked goal came to maybe before, and more was not noted.
    WasMaybe,
    /// Nothing was noted.
    NotNoted,
}

impl Why {
    const ALL: [Why; 8] = [
        Why::NoDepth,
        Why::NoDepthOrRuns,
        Why::MostRuns,
        Why::UnknownCycle,
        Why::ForcedCycle,
        Why::NotKnown,
        Why::WasMaybe,
        Why::NotNoted,
    ];

    // The reason of this number, from 1 in the order of the reasons; 0 is none.
    fn of(number: u8) -> Result<Option<Why>, Error> {
        match usize::from(number).checked_sub(1) {
            None => Ok(None),
            Some(place) => Why::ALL.get(place).copied().map(Some).ok_or(Error::Unexpected { status: number }),
        }
    }
}

impl fmt::Display for Why {
    fn fmt(&self, f: &mut fmt::Formatter<'_>) -> fmt::Result {
        f.write_str(match self {
            Why::NoDepth => "no depth was left",
            Why::NoDepthOrRuns => "no depth was left, or the asked goal had its most runs before",
            Why::MostRuns => "it had its most runs",
            Why::UnknownCycle => "a cycle of unknown kind",
            Why::ForcedCycle => "a cycle of forced ambiguity",
            Why::NotKnown => "its candidates are not known",
            Why::WasMaybe => "it came to maybe before",
            Why::NotNoted => "no reason was noted",
        })
    }
}

impl Reason {
    pub(crate) fn of(raw: &RawReason) -> Result<Reason, Error> {
        let outcome = Outcome::of(raw.outcome.into()).ok_or(Error::Unexpected { status: raw.outcome })?;
        let kind = PathKind::of(raw.step.into()).ok_or(Error::Unexpected { status: raw.step })?;
        let cut = raw.has_question.then_some(Cut { by: Goal(raw.by), kind, asked: Goal(raw.asked) });
        Ok(Reason { outcome, runs: raw.started, limits_met: raw.limits_met, why: Why::of(raw.kind)?, cut })
    }
}
