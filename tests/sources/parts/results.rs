//! Tests of what is known of a goal once its evaluation has ended.

use crate::parts::told::Told;
use cycle_heads::depth::StackDepth;
use cycle_heads::usages::HeadUsages;
use delegate_parts::Outcome;
use path_kinds::path::{PathKind, PathsToNested};
use search_context::context::{Cx, NodeId};
use search_stack::depth::AvailableDepth;
use search_stack::result::EvaluationResult;
use search_stack::stack::{EntryState, Stack, StackEntry};
use std::alloc::Global;
use std::test::Fail;
use test_delegates::loops::LoopsContext;

#[test]
fn a_result_takes_over_what_all_runs_share(rt: HostRuntime) -> Result<(), Fail> {
    let mut told = Told::new(rt.alloc());
    tell_ended::<LoopsContext>(rt.alloc(), &mut told)?;
    let wanted = "u at 1 comes to maybe, required 3, head 0 u -, below i:u";
    let told = told.text()?;
    assert_eq!(rt; told.as_str(), wanted);
    Ok(())
}

/// The result of a goal that met overflow in an earlier run, and rests on the goal below it.
fn tell_ended<X>(alloc: Global, told: &mut Told) -> Result<(), Fail>
where
    X: Cx<Input = PathKind, Result = Outcome>,
{
    let mut stack = Stack::<X>::new(alloc);
    for goal in [PathKind::Inductive, PathKind::Unknown] {
        if stack.find(goal).is_some() {
            return Err("the goal is on the stack")?;
        }
        stack.push(StackEntry::new(alloc, goal, goal, AvailableDepth(4)))?;
    }
    if stack.is_empty() {
        return Err("no goal")?;
    }
    let (place, state) = stack.last_mut_with_index();
    note(state)?;
    if stack.is_empty() {
        return Err("no goal")?;
    }
    let entry = stack.pop();
    told.kind("", entry.input());
    told.number(" at ", place.index());
    let ended = EvaluationResult::finalize(entry, false, Outcome::Maybe, None);
    tell(told, &ended);
    Ok(())
}

/// Notes what a run found of a new goal.
fn note<X: Cx<Input = PathKind>>(state: &mut EntryState<X>) -> Result<(), Fail> {
    if state.usages.is_some() || state.candidate_usages.is_some() {
        return Err("a new goal was used")?;
    }
    state.required_depth = 3;
    state.encountered_overflow = true;
    let paths = PathsToNested::UNKNOWN;
    let usages = HeadUsages::default();
    state.heads.insert(StackDepth::new(0), paths, usages)?;
    state.nested_goals.insert(PathKind::Inductive, paths)?;
    Ok(())
}

fn tell<X>(told: &mut Told, ended: &EvaluationResult<X>)
where
    X: Cx<Input = PathKind, Result = Outcome>,
{
    told.outcome(" comes to ", ended.result);
    told.number(", required ", ended.required_depth);
    if ended.encountered_overflow {
        told.say(" and more");
    }
    if let Some(NodeId(number)) = ended.node {
        told.number(", node ", number);
    }
    for (depth, head) in ended.heads.as_slice() {
        told.number(", head ", depth.index());
        told.head(" ", *head);
    }
    for (goal, paths) in ended.nested_goals.iter() {
        told.kind(", below ", goal);
        told.paths(":", paths);
    }
}
