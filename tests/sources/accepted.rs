//! Graphs that a cache hands out and the checker accepts.

use graph_check::check_graph;
use search_parts::context::{Cx, Delegate, NoMemory, NodeId, Verdict};
use search_parts::global_cache::GlobalCache;
use std::alloc::Global;

/// Whether a graph of the node is handed out, and the checker accepts it.
pub fn has_accepted_graph<X, D>(
    alloc: Global,
    cache: &GlobalCache<D>,
    goal: X::Input,
    verdict: Verdict,
    node: NodeId,
    builder: &mut D::ProofTreeBuilder,
) -> Result<bool, NoMemory>
where
    X: Cx,
    D: Delegate<Cx = X>,
{
    match cache.graph_of(node)? {
        Some(graph) => check_graph::<D>(alloc, cache.cx(), &graph, goal, verdict, builder),
        None => Ok(false),
    }
}
