//! Tests of how provisional entries are rebased when a goal that they rest on is popped. It was the second goal on the stack,
//! asked over an inductive step.

use crate::parts::entries::{GOAL, LOWER, TestEntry, USER, cache_of, tell_entries};
use crate::parts::told::Told;
use cycle_heads::depth::StackDepth;
use cycle_heads::usages::HeadUsages;
use delegate_parts::{ContextOf, Outcome};
use path_kinds::path::{PathKind, PathsToNested};
use provisional_cache::RebaseReason;
use search_context::context::{Cx, Delegate, NoMemory};
use search_stack::depth::AvailableDepth;
use search_stack::stack::{Stack, StackEntry};
use std::alloc::Global;
use std::test::Fail;
use test_delegates::loops::{Loops, LoopsContext, LoopsDelegate};

/// Why the goal is done.
#[derive(Clone, Copy)]
enum Reason {
    NoCycleUsages,
    Ambiguity,
    Overflow,
    Stable,
    Initial(PathKind),
}

/// Each reason.
const REASONS: [Reason; 6] = [
    Reason::NoCycleUsages,
    Reason::Ambiguity,
    Reason::Overflow,
    Reason::Stable,
    Reason::Initial(PathKind::Coinductive),
    Reason::Initial(PathKind::Inductive),
];

/// By which paths the goal that is done rests on the first goal, and how often it used that.
type Head = (PathsToNested, HeadUsages);

/// By coinductive cycles.
const COINDUCTIVE: Option<Head> = Some((
    PathsToNested::COINDUCTIVE,
    HeadUsages {
        inductive: 0,
        unknown: 0,
        coinductive: 1,
        forced_ambiguity: 0,
    },
));

/// By inductive ones.
const INDUCTIVE: Option<Head> = Some((
    PathsToNested::INDUCTIVE,
    HeadUsages {
        inductive: 1,
        unknown: 0,
        coinductive: 0,
        forced_ambiguity: 0,
    },
));

/// One that did not use it.
const OTHER: TestEntry = TestEntry {
    head: 1,
    counts: [0, 0, 0, 0],
    encountered_overflow: false,
    path_from_head: PathKind::Inductive,
    result: Outcome::Yes,
};

/// One that used it by cycles of both kinds.
const MIXED: TestEntry = TestEntry {
    head: 1,
    counts: [1, 0, 1, 0],
    encountered_overflow: false,
    path_from_head: PathKind::Inductive,
    result: Outcome::Yes,
};

/// One that used it twice, by coinductive cycles.
const SINGLE: TestEntry = TestEntry {
    head: 1,
    counts: [0, 0, 2, 0],
    encountered_overflow: false,
    path_from_head: PathKind::Inductive,
    result: Outcome::Maybe,
};

/// Entries, how the goal that is done rests on the first one, and what is left of the entries by each reason.
const ROWS: [(&str, &[TestEntry], Option<Head>, [&str; 6]); 5] = [
    (
        "an entry that used the goal is rebased by the reason",
        &[USER],
        COINDUCTIVE,
        [
            "empty",
            "maybe over i from 0 c 1c",
            "overflow over i from 0 c 1c",
            "yes 5 over i from 0 c 1c",
            "yes 5 over i from 0 c 1c",
            "empty",
        ],
    ),
    (
        "an answer that did not use the goal stays",
        &[OTHER],
        COINDUCTIVE,
        [
            "yes 5 over i from 0 e -",
            "yes 5 over i from 0 e -",
            "yes 5 over i from 0 e -",
            "yes 5 over i from 0 e -",
            "yes 5 over i from 0 e -",
            "yes 5 over i from 0 e -",
        ],
    ),
    (
        "an answer that changes a cycle is dropped",
        &[USER],
        INDUCTIVE,
        ["empty", "empty", "empty", "empty", "empty", "empty"],
    ),
    (
        "an answer without another head is dropped",
        &[USER],
        None,
        ["empty", "empty", "empty", "empty", "empty", "empty"],
    ),
    (
        "other answers stay in order",
        &[LOWER, MIXED, SINGLE],
        COINDUCTIVE,
        [
            "no 5 over i from 0 c 1i1c",
            "no 5 over i from 0 c 1i1c, maybe over i from 0 c 1c, maybe over i from 0 c 1c",
            "no 5 over i from 0 c 1i1c, overflow over i from 0 c 1c, overflow over i from 0 c 1c",
            "no 5 over i from 0 c 1i1c, yes 5 over i from 0 c 1c, maybe over i from 0 c 1c",
            "no 5 over i from 0 c 1i1c, maybe over i from 0 c 1c",
            "no 5 over i from 0 c 1i1c",
        ],
    ),
];

#[test]
fn rebased_entries_are_as_told(rt: HostRuntime) -> Result<(), Fail> {
    for (name, entries, head, wanted) in ROWS {
        for (reason, wanted) in REASONS.into_iter().zip(wanted) {
            let mut told = Told::new(rt.alloc());
            let (cx, at) = (ContextOf(Loops), rt.alloc());
            let is_done = tell::<LoopsContext, LoopsDelegate>(
                at, &mut told, cx, entries, head, reason,
            )?;
            assert!(rt; is_done, "{name}");
            let told = told.text()?;
            assert_eq!(rt; told.as_str(), wanted, "{name}");
        }
    }
    Ok(())
}

/// Tells what is left of the entries after the goal is done, and answers whether there was memory to rebase them.
fn tell<X, D>(
    alloc: Global,
    told: &mut Told,
    cx: X,
    entries: &[TestEntry],
    head: Option<Head>,
    reason: Reason,
) -> Result<bool, NoMemory>
where
    X: Cx<Input = PathKind, Result = Outcome, AmbiguityInfo = ()>,
    D: Delegate<Cx = X>,
{
    let mut cache = cache_of::<X, D>(alloc, GOAL, entries)?;
    let stack = stack_of_one::<X>(alloc, PathKind::ForcedAmbiguity)?;
    let done = done_goal::<X>(alloc, PathKind::Inductive, head)?;
    let is_done = cache.rebase(cx, &done, &stack, reason_of(reason)).is_ok();
    tell_entries(told, GOAL, &cache);
    Ok(is_done)
}

fn reason_of<X: Cx<AmbiguityInfo = ()>>(reason: Reason) -> RebaseReason<X> {
    match reason {
        Reason::NoCycleUsages => RebaseReason::NoCycleUsages,
        Reason::Ambiguity => RebaseReason::Ambiguity(()),
        Reason::Overflow => RebaseReason::Overflow,
        Reason::Stable => RebaseReason::ReachedFixpoint(None),
        Reason::Initial(kind) => RebaseReason::ReachedFixpoint(Some(kind)),
    }
}

/// A stack with one goal.
fn stack_of_one<X: Cx>(alloc: Global, goal: X::Input) -> Result<Stack<X>, NoMemory> {
    let mut stack = Stack::<X>::new(alloc);
    let kind = PathKind::ForcedAmbiguity;
    stack.push(StackEntry::new(alloc, goal, kind, AvailableDepth(4)))?;
    Ok(stack)
}

/// The goal that is done, above the stack of one.
fn done_goal<X: Cx>(
    alloc: Global,
    goal: X::Input,
    head: Option<Head>,
) -> Result<StackEntry<X>, NoMemory> {
    let mut done = StackEntry::new(alloc, goal, PathKind::Inductive, AvailableDepth(3));
    if let Some((paths, usages)) = head {
        done.state.heads.insert(StackDepth::new(0), paths, usages)?;
    }
    Ok(done)
}
