//! A long list of queries, many of which end in a fault: each has its own answer, and none wants memory.

use delegate_parts::{Builder, ContextOf, Outcome};
use search_graph::graph::SearchGraph;
use search_parts::context::Fault;
use search_parts::global_cache::GlobalCache;
use search_parts::path::PathKind;
use std::test::Fail;
use test_delegates::scripts::{Goal, Line, Scripts, ScriptsDelegate};

const QUERIES: usize = 3_000;

/// The goal whose script ends a candidate that has not begun.
const DISORDERLY: Goal = Goal(1);

const SCRIPTS: Scripts = Scripts {
    lines: [
        [Line::End; 5],
        [Line::FinishCandidate; 5],
        [Line::Evaluate(PathKind::Inductive, DISORDERLY); 5],
    ],
};

/// Every third goal is disorderly, and so is what one other goal asks. All others hold, and none is asked twice.
fn goal_of(number: usize) -> Goal {
    if number % 3 == 1 {
        DISORDERLY
    } else {
        Goal(number)
    }
}

#[test]
fn a_long_list_is_answered_past_its_faults(rt: HostRuntime) -> Result<(), Fail> {
    let alloc = rt.alloc();
    let mut queries = Vec::new(alloc);
    for number in 0..QUERIES {
        queries.push((2, goal_of(number), PathKind::Inductive))?;
    }
    let mut cache = GlobalCache::<ScriptsDelegate<1>>::new(alloc, ContextOf(SCRIPTS));
    let mut builder = Builder::new(true);
    let mut given = Vec::new(alloc);
    SearchGraph::<ScriptsDelegate<1>>::evaluate_list(
        &mut cache,
        queries.as_slice(),
        &mut builder,
        &mut given,
    )?;
    assert_eq!(rt; given.len(), QUERIES, "answers");
    for (number, answer) in given.iter().enumerate() {
        let is_disorderly = number % 3 == 1 || number == 2;
        let is_right = match answer {
            Ok(answer) => !is_disorderly && answer.result == Outcome::Yes,
            Err(fault) => is_disorderly && *fault == Fault::Protocol(2),
        };
        assert!(rt; is_right, "query {number}");
    }
    Ok(())
}
