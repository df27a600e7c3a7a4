//! Tests of the results that a cache stores, of goals that ask themselves.

use crate::parts::storing::{Found, Stored, store};
use crate::parts::told::{KINDS, Told};
use delegate_parts::{ContextOf, Outcome};
use global_cache::{CacheData, GlobalCache, NestedTest};
use path_kinds::path::PathKind;
use search_context::context::{Cx, Delegate, Fault, NoMemory, NodeId};
use search_stack::depth::AvailableDepth;
use std::alloc::Global;
use std::test::Fail;
use test_delegates::loops::{Loops, LoopsContext, LoopsDelegate};
use test_delegates::nested::{Anything, Leaves};

/// A goal, what is stored of it, and what comes of it: what was answered each time, what is stored then, and at each depth up
/// to 5 what is found where any goals may be below, and where none may be. A mark of `!` says that the result met overflow.
const ROWS: [(&str, PathKind, &[Found], &str); 9] = [
    (
        "a result that differs is a conflict",
        PathKind::ForcedAmbiguity,
        &[
            Found::Success(Outcome::Maybe, 0, None),
            Found::Success(Outcome::Overflow, 0, None),
        ],
        "stored, f is maybe and not overflow, success maybe 0, ; 0 maybe 0, 1 maybe 0, 2 maybe \
         0, 3 maybe 0, 4 maybe 0, 5 maybe 0, ; 0 maybe 0, 1 maybe 0, 2 maybe 0, 3 maybe 0, 4 \
         maybe 0, 5 maybe 0, ",
    ),
    (
        "an equal result replaces it afterwards",
        PathKind::ForcedAmbiguity,
        &[
            Found::Success(Outcome::Maybe, 0, None),
            Found::Success(Outcome::Overflow, 0, None),
            Found::Success(Outcome::Maybe, 3, None),
        ],
        "stored, f is maybe and not overflow, stored, success maybe 3, ; 3 maybe 3, 4 maybe 3, \
         5 maybe 3, ; 3 maybe 3, 4 maybe 3, 5 maybe 3, ",
    ),
    (
        "overflow results are used at their depth",
        PathKind::Unknown,
        &[
            Found::Overflow(Outcome::Maybe, 1, None),
            Found::Overflow(Outcome::Overflow, 3, None),
        ],
        "stored, stored, at 1 maybe, at 3 overflow, ; 1 maybe 1!, 3 overflow 3!, ; 1 maybe 1!, \
         3 overflow 3!, ",
    ),
    (
        "an overflow result that differs is a conflict",
        PathKind::Unknown,
        &[
            Found::Overflow(Outcome::Maybe, 1, None),
            Found::Overflow(Outcome::Overflow, 1, None),
        ],
        "stored, u is maybe and not overflow, at 1 maybe, ; 1 maybe 1!, ; 1 maybe 1!, ",
    ),
    (
        "a success is preferred where it is deep enough",
        PathKind::Unknown,
        &[
            Found::Overflow(Outcome::Overflow, 1, None),
            Found::Overflow(Outcome::Overflow, 2, None),
            Found::Success(Outcome::Maybe, 2, None),
        ],
        "stored, stored, stored, success maybe 2, at 1 overflow, at 2 overflow, ; 1 overflow \
         1!, 2 maybe 2, 3 maybe 2, 4 maybe 2, 5 maybe 2, ; 1 overflow 1!, 2 maybe 2, 3 maybe 2, \
         4 maybe 2, 5 maybe 2, ",
    ),
    (
        "a result whose goals are refused is not found",
        PathKind::Unknown,
        &[Found::Success(Outcome::Maybe, 1, Some(PathKind::Inductive))],
        "stored, success maybe 1, ; 1 maybe 1 i:u, 2 maybe 1 i:u, 3 maybe 1 i:u, 4 maybe 1 i:u, \
         5 maybe 1 i:u, ; ",
    ),
    (
        "it gives way to one that met overflow",
        PathKind::Unknown,
        &[
            Found::Success(Outcome::Maybe, 1, Some(PathKind::Inductive)),
            Found::Overflow(Outcome::Overflow, 2, None),
        ],
        "stored, stored, success maybe 1, at 2 overflow, ; 1 maybe 1 i:u, 2 maybe 1 i:u, 3 \
         maybe 1 i:u, 4 maybe 1 i:u, 5 maybe 1 i:u, ; 2 overflow 2!, ",
    ),
    (
        "a lookup lends the nested goals",
        PathKind::Unknown,
        &[
            Found::Overflow(Outcome::Maybe, 1, Some(PathKind::Inductive)),
            Found::Overflow(Outcome::Maybe, 4, Some(PathKind::Inductive)),
        ],
        "stored, stored, at 1 maybe, at 4 maybe, ; 1 maybe 1! i:u, 4 maybe 4! i:u, ; ",
    ),
    (
        "a definite result is found with its node",
        PathKind::Coinductive,
        &[Found::Success(Outcome::Yes, 1, None)],
        "stored, success yes 1, ; 1 yes 1 node 0, 2 yes 1 node 0, 3 yes 1 node 0, 4 yes 1 node \
         0, 5 yes 1 node 0, ; 1 yes 1 node 0, 2 yes 1 node 0, 3 yes 1 node 0, 4 yes 1 node 0, 5 \
         yes 1 node 0, ",
    ),
];

#[test]
fn stored_results_are_as_told(rt: HostRuntime) -> Result<(), Fail> {
    for (name, goal, found, wanted) in ROWS {
        let mut told = Told::new(rt.alloc());
        tell(rt.alloc(), &mut told, goal, found)?;
        let told = told.text()?;
        assert_eq!(rt; told.as_str(), wanted, "{name}");
    }
    Ok(())
}

/// Tells what comes of these results in a cache of their own.
fn tell(alloc: Global, told: &mut Told, goal: PathKind, results: &[Found]) -> Result<(), NoMemory> {
    let mut cache = GlobalCache::<LoopsDelegate>::new(alloc, ContextOf(Loops));
    for found in results {
        tell_answer(told, store(&mut cache, goal, *found)?);
    }
    tell_all::<LoopsContext, LoopsDelegate>(told, &cache, goal);
    Ok(())
}

/// Tells what is stored and found of the goal. Of any other one there may be nothing.
fn tell_all<X, D>(told: &mut Told, cache: &GlobalCache<D>, goal: PathKind)
where
    X: Cx<Input = PathKind, Result = Outcome>,
    D: Delegate<Cx = X>,
{
    tell_stored(told, cache, goal);
    tell_hits(told, cache, goal, &Anything);
    tell_hits(told, cache, goal, &Leaves);
    for other in KINDS {
        if other != goal && is_known(cache, other) {
            told.say("and of another goal");
        }
    }
}

/// What was answered where a result was stored.
fn tell_answer(told: &mut Told, stored: Stored) {
    match stored {
        Ok(()) => told.say("stored, "),
        Err(
            Fault::Conflict {
                input,
                stored,
                found,
            },
        ) => {
            told.kind("", input);
            told.outcome(" is ", stored);
            told.outcome(" and not ", found);
            told.say(", ");
        }
        Err(_) => told.say("another fault, "),
    }
}

/// What is stored of the goal.
fn tell_stored<X, D>(told: &mut Told, cache: &GlobalCache<D>, goal: PathKind)
where
    X: Cx<Input = PathKind, Result = Outcome>,
    D: Delegate<Cx = X>,
{
    if let Some((outcome, depth)) = cache.success_of(goal) {
        told.outcome("success ", outcome);
        told.number(" ", depth);
        told.say(", ");
    }
    for depth in 0..=5usize {
        if let Some(outcome) = cache.overflow_at(goal, depth) {
            told.number("at ", depth);
            told.outcome(" ", outcome);
            told.say(", ");
        }
    }
}

/// What is found of the goal at each depth.
fn tell_hits<X, D, T>(told: &mut Told, cache: &GlobalCache<D>, goal: PathKind, test: &T)
where
    X: Cx<Input = PathKind, Result = Outcome>,
    D: Delegate<Cx = X>,
    T: NestedTest<X>,
{
    told.say("; ");
    for depth in 0..=5usize {
        if let Some(hit) = cache.get(goal, AvailableDepth(depth), test) {
            told.number("", depth);
            tell_hit(told, &hit);
        }
    }
}

fn tell_hit<X>(told: &mut Told, hit: &CacheData<'_, X>)
where
    X: Cx<Input = PathKind, Result = Outcome>,
{
    told.outcome(" ", hit.result);
    told.number(" ", hit.required_depth);
    if hit.encountered_overflow {
        told.say("!");
    }
    if let Some(NodeId(number)) = hit.node {
        told.number(" node ", number);
    }
    for (goal, paths) in hit.nested_goals.iter() {
        told.kind(" ", goal);
        told.paths(":", paths);
    }
    told.say(", ");
}

/// Whether there is any result of the goal.
fn is_known<X, D>(cache: &GlobalCache<D>, goal: PathKind) -> bool
where
    X: Cx<Input = PathKind>,
    D: Delegate<Cx = X>,
{
    for depth in 0..=5usize {
        let hit = cache.get(goal, AvailableDepth(depth), &Anything);
        if hit.is_some() || cache.overflow_at(goal, depth).is_some() {
            return true;
        }
    }
    cache.success_of(goal).is_some()
}
