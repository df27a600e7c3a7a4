//! A graph between its calls, where no goal is under evaluation.

use delegate_parts::{Builder, Outcome};
use rule_tables::Goal;
use search_graph::graph::SearchGraph;
use search_parts::context::{Answer, Cx, Delegate, Fault};
use search_parts::global_cache::GlobalCache;
use search_parts::parts::{CandidateHeadUsages, HeadUsages, StackDepth};
use search_parts::path::PathKind;
use std::alloc::Global;
use std::io::Write;
use std::test::Fail;

/// What a new graph of this depth answers to calls on candidates, and what the goal comes to on it afterwards.
pub fn write_idle<X, D>(
    alloc: Global,
    lines: &mut Vec<u8>,
    cx: X,
    depth: usize,
    goal: Goal,
) -> Result<(), Fail>
where
    X: Cx<Input = Goal, Result = Outcome>,
    D: Delegate<Cx = X, ProofTreeBuilder = Builder>,
{
    write!(lines, "\nidle")?;
    let mut graph = SearchGraph::<D>::new(alloc, depth);
    let ignored = graph.ignore_candidate_head_usages(CandidateHeadUsages::new(alloc));
    write_call(lines, "ignore nothing", ignored.err())?;
    let ignored = graph.ignore_candidate_head_usages(some_usages(alloc)?);
    write_call(lines, "ignore", ignored.err())?;
    let entered = graph.enter_single_candidate();
    write_call(lines, "enter", entered.err())?;
    let finished = graph.finish_single_candidate();
    write_call(lines, "finish", finished.err())?;
    write_asked::<X, D>(lines, &mut graph, cx, goal)
}

/// Usages of one goal.
fn some_usages(alloc: Global) -> Result<CandidateHeadUsages, Fail> {
    let mut usages = CandidateHeadUsages::new(alloc);
    let inductive = HeadUsages {
        inductive: 1,
        ..HeadUsages::default()
    };
    usages.note_usages(StackDepth::new(0), inductive)?;
    Ok(usages)
}

/// A call, and how it was refused.
fn write_call(
    lines: &mut Vec<u8>,
    name: &str,
    fault: Option<Fault<Goal, Outcome>>,
) -> Result<(), Fail> {
    match fault {
        None => write!(lines, "\n{name}: done")?,
        Some(fault) => write!(lines, "\n{name}: {fault}")?,
    }
    Ok(())
}

/// What the goal comes to on the graph, which has no goal before.
fn write_asked<X, D>(
    lines: &mut Vec<u8>,
    graph: &mut SearchGraph<D>,
    cx: X,
    goal: Goal,
) -> Result<(), Fail>
where
    X: Cx<Input = Goal, Result = Outcome>,
    D: Delegate<Cx = X, ProofTreeBuilder = Builder>,
{
    let open = graph.debug_current_depth();
    if !graph.is_empty() || open > 0 {
        write!(lines, "\n{open} open")?;
    }
    let mut cache = GlobalCache::<D>::new(*lines.allocator(), cx);
    let mut builder = Builder::new(true);
    let answer = graph.evaluate_goal(&mut cache, goal, PathKind::Inductive, &mut builder)?;
    write_answer(lines, answer, builder.started())
}

fn write_answer(lines: &mut Vec<u8>, answer: Answer<Outcome>, started: u64) -> Result<(), Fail> {
    let outcome = answer.result;
    write!(lines, "\nask: {outcome} {started}")?;
    if answer.node.is_some() {
        write!(lines, " with a node")?;
    }
    Ok(())
}
