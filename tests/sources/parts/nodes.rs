//! Tests of the nodes of a cache, and of the graphs that are handed out. The goals ask themselves.

use crate::parts::told::Told;
use delegate_parts::{ContextOf, Outcome};
use global_cache::GlobalCache;
use path_kinds::path::PathKind;
use search_context::context::{Cx, Delegate, NoMemory, Node, NodeId, Reply};
use std::alloc::Global;
use std::test::Fail;
use test_delegates::loops::{Loops, LoopsContext, LoopsDelegate, answered_loop, finish_towards};

/// The goal of both nodes of the cycle.
const GOAL: PathKind = PathKind::Coinductive;

/// What the cache has of the numbers from 0 to 3, at first, after one run of another goal, with two open nodes of the goal,
/// with one of them ended, and with both. A node that has ended has its goal, its result, its replies, and its edges. In
/// brackets stands the graph that is handed out.
const WANTED: &str = "\
-, -, -, -, ; \
i no begin no i:i>0 [i no begin no i:i>0, ], -, -, -, ; \
i no begin no i:i>0 [i no begin no i:i>0, ], open, open, -, ; \
i no begin no i:i>0 [i no begin no i:i>0, ], c yes begin yes c:c>2, open, -, ; \
i no begin no i:i>0 [i no begin no i:i>0, ], \
c yes begin yes c:c>2 [c yes begin yes c:c>1, c yes begin yes c:c>0, ], \
c yes begin yes c:c>1 [c yes begin yes c:c>1, c yes begin yes c:c>0, ], -, ; ";

#[test]
fn a_cycle_of_two_runs_of_one_goal_is_handed_out(rt: HostRuntime) -> Result<(), Fail> {
    let mut told = Told::new(rt.alloc());
    cycle_of_two(rt.alloc(), &mut told)?;
    let told = told.text()?;
    assert_eq!(rt; told.as_str(), WANTED);
    Ok(())
}

/// Runs one goal once, and another one twice, where each run leads to the other. Each of the two nodes is open until its own
/// run ends, and each is a node of that goal, as `finish_towards` requires.
fn cycle_of_two(alloc: Global, told: &mut Told) -> Result<(), NoMemory> {
    let mut cache = GlobalCache::<LoopsDelegate>::new(alloc, ContextOf(Loops));
    tell::<LoopsContext, LoopsDelegate>(told, &cache);
    answered_loop(&mut cache, alloc, PathKind::Inductive, Outcome::No)?;
    tell::<LoopsContext, LoopsDelegate>(told, &cache);
    let first = cache.open_node(GOAL)?;
    let second = cache.open_node(GOAL)?;
    tell::<LoopsContext, LoopsDelegate>(told, &cache);
    finish_towards(&mut cache, alloc, first, GOAL, second, Outcome::Yes)?;
    tell::<LoopsContext, LoopsDelegate>(told, &cache);
    finish_towards(&mut cache, alloc, second, GOAL, first, Outcome::Yes)?;
    tell::<LoopsContext, LoopsDelegate>(told, &cache);
    Ok(())
}

/// What the cache has of the first numbers.
fn tell<X, D>(told: &mut Told, cache: &GlobalCache<D>)
where
    X: Cx<Input = PathKind, Result = Outcome>,
    D: Delegate<Cx = X>,
{
    let _cx: X = cache.cx();
    for number in 0..4usize {
        let number = NodeId(number);
        tell_node(told, cache.node_is_open(number), cache.node(number));
        tell_handed_out(told, cache, number);
        told.say(", ");
    }
    told.say("; ");
}

fn tell_node(told: &mut Told, is_open: bool, node: Option<&Node<PathKind, Outcome>>) {
    match (is_open, node) {
        (false, Some(node)) => tell_run(told, node),
        (true, None) => told.say("open"),
        (false, None) => told.say("-"),
        (true, Some(_)) => told.say("an open node has a run"),
    }
}

/// The graph that is handed out of the node, if one is.
fn tell_handed_out<X, D>(told: &mut Told, cache: &GlobalCache<D>, number: NodeId)
where
    X: Cx<Input = PathKind, Result = Outcome>,
    D: Delegate<Cx = X>,
{
    match cache.graph_of(number) {
        Ok(Some(graph)) => tell_graph(told, &graph.nodes),
        Ok(None) => {}
        Err(NoMemory) => told.say(" no memory"),
    }
}

fn tell_graph(told: &mut Told, nodes: &[Node<PathKind, Outcome>]) {
    told.say(" [");
    for node in nodes {
        tell_run(told, node);
        told.say(", ");
    }
    told.say("]");
}

/// The run of a node: its goal and its result, the replies, and the edges.
fn tell_run(told: &mut Told, node: &Node<PathKind, Outcome>) {
    told.kind("", node.input);
    told.outcome(" ", node.result);
    for reply in &node.replies {
        match reply {
            Reply::Begin => told.say(" begin"),
            Reply::Answer(outcome) => told.outcome(" ", *outcome),
            Reply::Noted => told.say(" noted"),
        }
    }
    for edge in &node.edges {
        told.kind(" ", edge.kind);
        told.kind(":", edge.input);
        told.number(">", edge.target);
    }
}
