//! Tests of the goals under evaluation. A goal is a kind of path here, but in the deep stack.

use crate::parts::told::{KINDS, Told};
use cycle_heads::depth::StackDepth;
use delegate_parts::ContextOf;
use path_kinds::path::PathKind;
use search_context::context::{Cx, NoMemory};
use search_stack::depth::AvailableDepth;
use search_stack::room::give_room_back;
use search_stack::stack::{Stack, StackEntry};
use std::alloc::{AllocError, Global};
use std::test::Fail;
use test_delegates::countdown::{Count, Countdown};
use test_delegates::loops::LoopsContext;

/// What is done with a stack.
#[derive(Clone, Copy)]
enum Act {
    /// A goal is pushed, asked over a step of this kind.
    Push(PathKind, PathKind),
    /// The last goal is popped, and told.
    Pop,
}

/// What is done with an empty stack, and what is on it then: where goals are found; all of them, from below; the last one
/// with its step and its depth; and for each place the kinds of the steps above it, and those of the paths from it on over
/// an inductive step, and over one that is unknown.
const ROWS: [(&str, &[Act], &str); 5] = [
    ("no goal", &[], "found:, 0:"),
    (
        "a goal is found at its place",
        &[Act::Push(PathKind::Inductive, PathKind::Coinductive)],
        "found: i0, 1:i, last i over c at 4, :iu",
    ),
    (
        "and so is the next one",
        &[
            Act::Push(PathKind::Inductive, PathKind::Coinductive),
            Act::Push(PathKind::Unknown, PathKind::Coinductive),
        ],
        "found: i0 u1, 2:iu, last u over c at 4, c:cc :iu",
    ),
    (
        "a popped goal is not found",
        &[
            Act::Push(PathKind::Inductive, PathKind::Coinductive),
            Act::Push(PathKind::Unknown, PathKind::Coinductive),
            Act::Pop,
        ],
        "popped u, found: i0, 1:i, last i over c at 4, :iu",
    ),
    (
        "the greatest step above the head is the kind",
        &[
            Act::Push(PathKind::Inductive, PathKind::ForcedAmbiguity),
            Act::Push(PathKind::Unknown, PathKind::Coinductive),
            Act::Push(PathKind::Coinductive, PathKind::Inductive),
        ],
        "found: i0 u1 c2, 3:iuc, last c over i at 4, ci:cc i:iu :iu",
    ),
];

#[test]
fn stacks_are_as_told(rt: HostRuntime) -> Result<(), Fail> {
    for (name, acts, wanted) in ROWS {
        let told = tell_acts::<LoopsContext>(rt.alloc(), acts).text()?;
        assert_eq!(rt; told.as_str(), wanted, "{name}");
    }
    Ok(())
}

fn tell_acts<X: Cx<Input = PathKind>>(alloc: Global, acts: &[Act]) -> Told {
    let mut told = Told::new(alloc);
    let mut stack = Stack::<X>::new(alloc);
    for act in acts {
        match act {
            Act::Push(goal, step) => push(alloc, &mut told, &mut stack, *goal, *step),
            Act::Pop => pop(&mut told, &mut stack),
        }
    }
    tell_goals(&mut told, &stack);
    tell_last(&mut told, &stack);
    for place in 0..stack.len() {
        tell_steps(&mut told, &stack, place);
    }
    told
}

fn push<X: Cx<Input = PathKind>>(
    alloc: Global,
    told: &mut Told,
    stack: &mut Stack<X>,
    goal: PathKind,
    step: PathKind,
) {
    if stack.find(goal).is_some() {
        told.say("twice ");
        return;
    }
    let next = stack.next_index();
    let entry = StackEntry::new(alloc, goal, step, AvailableDepth(4));
    if stack.push(entry) != Ok(next) {
        told.say("elsewhere ");
    }
}

fn pop<X: Cx<Input = PathKind>>(told: &mut Told, stack: &mut Stack<X>) {
    if stack.is_empty() {
        told.say("no goal to be popped ");
        return;
    }
    let popped = stack.pop();
    told.kind("popped ", popped.input());
    told.say(", ");
}

/// Where each goal is found, how many there are, and all of them from below.
fn tell_goals<X: Cx<Input = PathKind>>(told: &mut Told, stack: &Stack<X>) {
    told.say("found:");
    for goal in KINDS {
        if let Some(place) = stack.find(goal) {
            told.kind(" ", stack[place].input());
            told.number("", place.index());
        }
    }
    told.number(", ", stack.len());
    told.say(":");
    for entry in stack.iter() {
        told.kind("", entry.input());
    }
}

fn tell_last<X: Cx<Input = PathKind>>(told: &mut Told, stack: &Stack<X>) {
    if stack.is_empty() {
        return;
    }
    let last = stack.last();
    told.kind(", last ", last.input());
    told.kind(" over ", last.step_kind_from_parent());
    told.number(" at ", last.available_depth().0);
    told.say(",");
}

/// The kinds of the steps above the place, and of paths from it.
fn tell_steps<X: Cx<Input = PathKind>>(told: &mut Told, stack: &Stack<X>, place: usize) {
    if place >= stack.len() {
        return;
    }
    let head = StackDepth::new(place);
    told.say(" ");
    for kind in stack.cycle_step_kinds(head) {
        told.kind("", kind);
    }
    told.kind(":", stack.path_kind(PathKind::Inductive, head));
    told.kind("", stack.path_kind(PathKind::Unknown, head));
}

#[test]
fn goals_of_a_deep_stack_are_found(rt: HostRuntime) -> Result<(), Fail> {
    let mut stack = Stack::<ContextOf<Countdown>>::new(rt.alloc());
    assert!(rt; finds_while_it_grows(rt.alloc(), &mut stack)?);
    assert!(rt; finds_while_it_falls(&mut stack));
    Ok(())
}

/// Pushes 39 goals on an empty stack, and looks for goals before each of them.
fn finds_while_it_grows<X: Cx<Input = Count>>(
    alloc: Global,
    stack: &mut Stack<X>,
) -> Result<bool, NoMemory> {
    for place in 0..39usize {
        let goal = goal_of(place);
        if !finds_the_first(stack, place) || stack.find(goal).is_some() {
            return Ok(false);
        }
        stack.push(StackEntry::new(alloc, goal, PathKind::Unknown, AvailableDepth(4)))?;
    }
    Ok(finds_the_first(stack, 39))
}

/// Pops all but ten of 39 goals, and looks for goals after each of them.
fn finds_while_it_falls<X: Cx<Input = Count>>(stack: &mut Stack<X>) -> bool {
    for popped in 0..29usize {
        let place = 38usize.saturating_sub(popped);
        if stack.is_empty() {
            return false;
        }
        let goal = stack.pop().input();
        if goal != goal_of(place) || !finds_the_first(stack, place) {
            return false;
        }
    }
    stack.len() == 10
}

/// Whether of forty goals the first so many are found at their places, and no other one is.
fn finds_the_first<X: Cx<Input = Count>>(stack: &Stack<X>, count: usize) -> bool {
    for place in 0..40usize {
        let wanted = if place < count {
            Some(StackDepth::new(place))
        } else {
            None
        };
        if stack.find(goal_of(place)) != wanted {
            return false;
        }
    }
    true
}

/// The goal that is pushed at this place.
fn goal_of(place: usize) -> Count {
    Count(u32::try_from(place).unwrap_or(0))
}

#[test]
fn a_list_that_empties_gives_memory_back(rt: HostRuntime) -> Result<(), Fail> {
    assert!(rt; gives_memory_back(rt.alloc())?);
    Ok(())
}

/// Whether a list of 9,000 numbers with room for 20,000 gives memory back, keeps its numbers, and gives back no more when
/// it is asked again.
fn gives_memory_back(alloc: Global) -> Result<bool, AllocError> {
    let mut list = Vec::with_capacity(alloc, 20000)?;
    for number in 0..9000u32 {
        list.push(number)?;
    }
    give_room_back(&mut list);
    let room = list.capacity();
    give_room_back(&mut list);
    let is_kept = list.len() == 9000 && list.last() == Some(&8999);
    Ok(room < 20000 && is_kept && list.capacity() == room)
}
