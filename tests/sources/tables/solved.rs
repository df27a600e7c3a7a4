//! Which goals have a proof graph, without a search.
//!
//! A goal has one if it can be proved so that each way through the questions that prove it, and theirs, ends or takes
//! coinductive steps without end. So take all goals, and strike out those that are not proved by finitely many inductive
//! steps down to questions that lead coinductively to a goal which is left, until nothing changes.

use crate::tables::random_tables::{Candidate, Candidates, Question};
use std::alloc::Global;
use std::test::Fail;

/// Whether each goal has a proof graph.
pub fn have_proofs(alloc: Global, goals: &[Candidates]) -> Result<Vec<bool>, Fail> {
    let mut left = Vec::from_elem(alloc, true, goals.len())?;
    // Each round but the last strikes out a goal.
    for _ in goals {
        left = proved_over(alloc, goals, left.as_slice())?;
    }
    Ok(left)
}

/// Whether each goal is proved by finitely many inductive steps, where coinductive ones may lead to any goal that is left.
fn proved_over(alloc: Global, goals: &[Candidates], left: &[bool]) -> Result<Vec<bool>, Fail> {
    let mut found = Vec::from_elem(alloc, false, goals.len())?;
    // Each round but the last finds a goal.
    for _ in goals {
        found = found_next(alloc, goals, left, found.as_slice())?;
    }
    Ok(found)
}

/// Whether each goal is proved by one more step over those that were found.
fn found_next(
    alloc: Global,
    goals: &[Candidates],
    left: &[bool],
    found: &[bool],
) -> Result<Vec<bool>, Fail> {
    let mut next = Vec::new(alloc);
    for candidates in goals {
        next.push(has_held(candidates.as_slice(), left, found))?;
    }
    Ok(next)
}

/// Whether one of the candidates holds.
fn has_held(candidates: &[Candidate], left: &[bool], found: &[bool]) -> bool {
    for candidate in candidates {
        if holds(candidate.questions.as_slice(), left, found) {
            return true;
        }
    }
    false
}

fn holds(questions: &[Question], left: &[bool], found: &[bool]) -> bool {
    for question in questions {
        if !is_proved(*question, left, found) {
            return false;
        }
    }
    true
}

fn is_proved(question: Question, left: &[bool], found: &[bool]) -> bool {
    let by_kind = if question.is_coinductive { left } else { found };
    match by_kind.get(question.goal) {
        Some(is_held) => *is_held,
        None => false,
    }
}
