//! Tests of which provisional entries are found, which are used, and which are cleared when a goal is rerun.

use crate::parts::entries::{GOAL, LOWER, TestEntry, USER, cache_of, tell_entries};
use crate::parts::told::{Told, usages_of};
use cycle_heads::depth::StackDepth;
use delegate_parts::Outcome;
use path_kinds::path::{PathKind, PathsToNested};
use provisional_cache::ProvisionalCache;
use search_context::context::{Cx, Delegate, NoMemory};
use search_stack::depth::AvailableDepth;
use search_stack::stack::{Stack, StackEntry};
use std::alloc::Global;
use std::test::Fail;
use test_delegates::loops::{LoopsContext, LoopsDelegate};

/// An entry of yes, which rests on the second goal over an inductive path.
const INDUCTIVE: TestEntry = TestEntry {
    head: 1,
    counts: [1, 0, 0, 0],
    encountered_overflow: false,
    path_from_head: PathKind::Inductive,
    result: Outcome::Yes,
};

/// One of no over a coinductive path.
const COINDUCTIVE: TestEntry = TestEntry {
    head: 1,
    counts: [1, 0, 0, 0],
    encountered_overflow: false,
    path_from_head: PathKind::Coinductive,
    result: Outcome::No,
};

/// One of maybe over the same path.
const LATER: TestEntry = TestEntry {
    head: 1,
    counts: [1, 0, 0, 0],
    encountered_overflow: false,
    path_from_head: PathKind::Coinductive,
    result: Outcome::Maybe,
};

/// One of no over a coinductive path, which rests on the first goal.
const FROM_FIRST: TestEntry = TestEntry {
    head: 0,
    counts: [1, 0, 0, 0],
    encountered_overflow: false,
    path_from_head: PathKind::Coinductive,
    result: Outcome::No,
};

/// One of yes that met overflow.
const OVERFLOW: TestEntry = TestEntry {
    head: 1,
    counts: [1, 0, 0, 0],
    encountered_overflow: true,
    path_from_head: PathKind::Inductive,
    result: Outcome::Yes,
};

/// Entries of a goal, on which goal the last one of three rests, by which step it asks the goal, and which answer it gets
/// from the entries. Above the second goal stands one that was asked over an inductive step, and that one was asked over a
/// coinductive step.
const LOOKUPS: [(&str, &[TestEntry], Option<usize>, PathKind, Option<Outcome>); 9] = [
    (
        "the first answer with the path is used",
        &[INDUCTIVE, COINDUCTIVE, LATER],
        None,
        PathKind::Inductive,
        Some(Outcome::Yes),
    ),
    (
        "no answer has the path",
        &[INDUCTIVE, COINDUCTIVE, LATER],
        None,
        PathKind::Unknown,
        None,
    ),
    (
        "the older of two answers with the path is used",
        &[INDUCTIVE, COINDUCTIVE, LATER],
        None,
        PathKind::Coinductive,
        Some(Outcome::No),
    ),
    (
        "above the first goal a coinductive step is on the path, whatever step is asked",
        &[FROM_FIRST],
        None,
        PathKind::Inductive,
        Some(Outcome::No),
    ),
    ("there is no answer", &[], None, PathKind::Inductive, None),
    (
        "an answer that met overflow is not used where there is no cycle",
        &[OVERFLOW],
        None,
        PathKind::Inductive,
        None,
    ),
    (
        "it is used within a larger cycle",
        &[OVERFLOW],
        Some(0),
        PathKind::Inductive,
        Some(Outcome::Yes),
    ),
    (
        "it is used within its cycle",
        &[OVERFLOW],
        Some(1),
        PathKind::Inductive,
        Some(Outcome::Yes),
    ),
    (
        "it is not used within a smaller cycle",
        &[OVERFLOW],
        Some(2),
        PathKind::Inductive,
        None,
    ),
];

#[test]
fn answers_are_used_as_told(rt: HostRuntime) -> Result<(), Fail> {
    for (name, entries, head, step, wanted) in LOOKUPS {
        let found = found::<LoopsContext, LoopsDelegate>(rt.alloc(), entries, head, step)?;
        assert_eq!(rt; found, wanted, "{name}");
    }
    Ok(())
}

/// The result of the entry that is used for the goal, if one is.
fn found<X, D>(
    alloc: Global,
    entries: &[TestEntry],
    head: Option<usize>,
    step: PathKind,
) -> Result<Option<Outcome>, Fail>
where
    X: Cx<Input = PathKind, Result = Outcome>,
    D: Delegate<Cx = X>,
{
    let cache = cache_of::<X, D>(alloc, GOAL, entries)?;
    let mut stack = stack_of_three::<X>(alloc)?;
    if let Some(depth) = head {
        rest_on(&mut stack, depth)?;
    }
    if stack.len() < 2 {
        return Err("a stack without the heads of the entries")?;
    }
    Ok(cache.lookup(GOAL, &stack, step).map(|entry| entry.result))
}

/// A stack of three goals, each asked over a step of its own kind.
fn stack_of_three<X: Cx<Input = PathKind>>(alloc: Global) -> Result<Stack<X>, Fail> {
    let mut stack = Stack::<X>::new(alloc);
    for goal in [
        PathKind::ForcedAmbiguity,
        PathKind::Coinductive,
        PathKind::Inductive,
    ] {
        if stack.find(goal).is_some() {
            return Err("the goal is on the stack")?;
        }
        stack.push(StackEntry::new(alloc, goal, goal, AvailableDepth(4)))?;
    }
    Ok(stack)
}

/// The last goal of the stack rests on the goal of this depth.
fn rest_on<X: Cx>(stack: &mut Stack<X>, depth: usize) -> Result<(), Fail> {
    if stack.is_empty() {
        return Err("no goal")?;
    }
    let heads = &mut stack.last_mut().heads;
    let usages = usages_of([1, 0, 0, 0]);
    heads.insert(StackDepth::new(depth), PathsToNested::INDUCTIVE, usages)?;
    Ok(())
}

/// Entries of a goal, and which of them are left when the second goal is rerun.
const RERUNS: [(&str, &[TestEntry], &str); 4] = [
    ("there is no entry", &[], "empty"),
    (
        "entries stand in the order of appending",
        &[UNUSED, LOWER],
        "no 5 over i from 1 c -, no 5 over i from 0 c 1i1c",
    ),
    (
        "a rerun gives up what used the goal",
        &[USER, UNUSED, INDUCTIVE, LOWER],
        "no 5 over i from 1 c -, no 5 over i from 0 c 1i1c",
    ),
    ("it may give up all", &[USER], "empty"),
];

/// One that did not use it.
const UNUSED: TestEntry = TestEntry {
    head: 1,
    counts: [0, 0, 0, 0],
    encountered_overflow: false,
    path_from_head: PathKind::Inductive,
    result: Outcome::No,
};

#[test]
fn reruns_give_up_entries_as_told(rt: HostRuntime) -> Result<(), Fail> {
    for (name, entries, wanted) in RERUNS {
        let mut told = Told::new(rt.alloc());
        tell_left::<LoopsContext, LoopsDelegate>(rt.alloc(), &mut told, entries)?;
        let told = told.text()?;
        assert_eq!(rt; told.as_str(), wanted, "{name}");
    }
    Ok(())
}

/// The entries that are left when the second goal is rerun. Another goal has none, before and afterwards.
fn tell_left<X, D>(alloc: Global, told: &mut Told, entries: &[TestEntry]) -> Result<(), NoMemory>
where
    X: Cx<Input = PathKind, Result = Outcome>,
    D: Delegate<Cx = X>,
{
    let mut cache = cache_of::<X, D>(alloc, GOAL, entries)?;
    if cache.is_empty() != entries.is_empty() || has_other(&cache) {
        told.say("other entries, ");
    }
    cache.clear_for_rerun(StackDepth::new(1));
    if has_other(&cache) {
        told.say("another goal has one, ");
    }
    tell_entries(told, GOAL, &cache);
    Ok(())
}

/// Whether another goal has an entry.
fn has_other<X, D>(cache: &ProvisionalCache<D>) -> bool
where
    X: Cx<Input = PathKind, Result = Outcome>,
    D: Delegate<Cx = X>,
{
    !cache.entries_of(PathKind::Inductive).is_empty()
}
