//! Goals that are asked on a graph of their own.

use search_graph::graph::SearchGraph;
use search_parts::context::{Answer, Cx, Delegate, Fault};
use search_parts::global_cache::GlobalCache;
use search_parts::path::PathKind;
use std::alloc::Global;
use std::test::Fail;

/// What the goal comes to, and whether a limit was met. No goal may be left under evaluation.
pub fn ask<X, D>(
    alloc: Global,
    cache: &mut GlobalCache<D>,
    depth: usize,
    goal: X::Input,
    builder: &mut D::ProofTreeBuilder,
) -> Result<(Result<Answer<X::Result>, Fault<X::Input, X::Result>>, bool), Fail>
where
    X: Cx,
    D: Delegate<Cx = X>,
{
    let mut graph = SearchGraph::<D>::new(alloc, depth);
    let answer = graph.evaluate_goal(cache, goal, PathKind::Inductive, builder);
    if !graph.is_empty() || graph.debug_current_depth() > 0 {
        return Err("goals are left under evaluation")?;
    }
    Ok((answer, graph.limits_met()))
}
