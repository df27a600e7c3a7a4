//! Graphs that a search handed out over a table of rules, and the checker's word on any graph.

use crate::searches::asking::ask;
use graph_check::check_graph;
use rule_tables::delegate::Table;
use rule_tables::{Builder, Goal, Outcome, Rules, TableDelegate};
use search_parts::context::{Cx, Delegate, Edge, Node, NodeId, ProofGraph, Reply, Verdict};
use search_parts::global_cache::GlobalCache;
use std::alloc::Global;
use std::test::Fail;

/// The nodes of a graph.
pub type Nodes = Vec<Node<Goal, Outcome>>;

/// What a goal came to.
#[derive(Drop)]
pub struct HandedOut {
    pub outcome: Outcome,
    /// The nodes of the graph that was handed out for it.
    pub nodes: Nodes,
    /// How many nodes the cache holds.
    pub held: usize,
}

/// The graph of the goal's answer at this depth, which has to be definite.
pub fn graph_for(
    alloc: Global,
    rules: &Rules,
    depth: usize,
    goal: Goal,
) -> Result<HandedOut, Fail> {
    let cx = Table { lender: rules };
    graph_with::<Table<&Rules>, TableDelegate<'_, 8, 1>>(alloc, cx, depth, goal)
}

fn graph_with<X, D>(alloc: Global, cx: X, depth: usize, goal: Goal) -> Result<HandedOut, Fail>
where
    X: Cx<Input = Goal, Result = Outcome>,
    D: Delegate<Cx = X, ProofTreeBuilder = Builder>,
{
    let mut cache = GlobalCache::<D>::new(alloc, cx);
    graph_over::<X, D>(alloc, &mut cache, depth, goal)
}

fn graph_over<X, D>(
    alloc: Global,
    cache: &mut GlobalCache<D>,
    depth: usize,
    goal: Goal,
) -> Result<HandedOut, Fail>
where
    X: Cx<Input = Goal, Result = Outcome>,
    D: Delegate<Cx = X, ProofTreeBuilder = Builder>,
{
    let mut builder = Builder::new(true);
    let (answer, _) = ask::<X, D>(alloc, cache, depth, goal, &mut builder)?;
    let answer = answer?;
    let node = answer.node.ok_or("an answer that is not definite")?;
    Ok(HandedOut {
        outcome: answer.result,
        nodes: nodes_of::<X, D>(cache, node)?,
        held: cache.held_nodes(),
    })
}

fn nodes_of<X, D>(cache: &GlobalCache<D>, node: NodeId) -> Result<Nodes, Fail>
where
    X: Cx<Input = Goal, Result = Outcome>,
    D: Delegate<Cx = X>,
{
    match cache.graph_of(node)? {
        Some(ProofGraph { nodes }) => Ok(nodes),
        None => Err("no graph of a definite answer")?,
    }
}

/// Whether the checker accepts the nodes as a graph that shows this of the goal.
pub fn is_accepted(
    alloc: Global,
    rules: &Rules,
    nodes: Nodes,
    goal: Goal,
    verdict: Verdict,
) -> Result<bool, Fail> {
    let cx = Table { lender: rules };
    is_accepted_with::<Table<&Rules>, TableDelegate<'_, 8, 1>>(alloc, cx, nodes, goal, verdict)
}

fn is_accepted_with<X, D>(
    alloc: Global,
    cx: X,
    nodes: Nodes,
    goal: Goal,
    verdict: Verdict,
) -> Result<bool, Fail>
where
    X: Cx<Input = Goal, Result = Outcome>,
    D: Delegate<Cx = X, ProofTreeBuilder = Builder>,
{
    let graph: ProofGraph<X> = ProofGraph { nodes };
    let mut builder = Builder::new(true);
    Ok(check_graph::<D>(alloc, cx, &graph, goal, verdict, &mut builder)?)
}

/// A copy of the node.
pub fn copy_of(alloc: Global, node: &Node<Goal, Outcome>) -> Result<Node<Goal, Outcome>, Fail> {
    let mut replies: Vec<Reply<Outcome>> = Vec::new(alloc);
    replies.extend_from_slice(node.replies.as_slice())?;
    let mut edges: Vec<Edge<Goal>> = Vec::new(alloc);
    edges.extend_from_slice(node.edges.as_slice())?;
    Ok(Node {
        input: node.input,
        replies,
        edges,
        result: node.result,
    })
}
