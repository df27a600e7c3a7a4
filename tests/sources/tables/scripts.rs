//! Requests in any order: which of them are refused and as what, and that the graph and the cache can be used
//! afterwards.
//!
//! A run has the scripts of the goals A, B and C on one line, with `; ` between them, and then a line `ask` with a depth and
//! the goals that are asked one after the other on one graph. What each comes to is its result or the number of its fault,
//! the frames that it started, the nodes of its graph, or after a fault how many nodes are held, and the successes that are
//! stored then. A node has its goal, its replies, and its edges with the places that they lead to.

use crate::tables::asked::is_shown;
use crate::tables::drawing::{draw_replies, start_line};
use crate::tables::letters::{kind_of, letter_of};
use delegate_parts::{Builder, ContextOf, Outcome};
use search_graph::graph::SearchGraph;
use search_parts::context::{Answer, Cx, Delegate, Fault, Node};
use search_parts::global_cache::GlobalCache;
use search_parts::path::PathKind;
use std::alloc::Global;
use std::io::Write;
use std::test::Fail;
use test_delegates::scripts::{Goal, Line, Scripts, ScriptsDelegate};

/// The goals' names.
const NAMES: [&str; 3] = ["A", "B", "C"];

/// What the goals come to that are asked.
pub fn tell(alloc: Global, options: &str, run: &str) -> Result<Vec<u8>, Fail> {
    let (scripts, asked) = run.split_once("\nask ").ok_or("no goals")?;
    let (depth, names) = asked.split_once(' ').ok_or("no depth")?;
    let depth = depth.parse::<usize>()?;
    let cx = ContextOf(scripts_of(scripts)?);
    match options {
        "limit 1" => {
            tell_with::<ContextOf<Scripts>, ScriptsDelegate<1>>(alloc, cx, depth, names)
        }
        "limit 8" => {
            tell_with::<ContextOf<Scripts>, ScriptsDelegate<8>>(alloc, cx, depth, names)
        }
        _ => Err("other options")?,
    }
}

fn tell_with<X, D>(alloc: Global, cx: X, depth: usize, names: &str) -> Result<Vec<u8>, Fail>
where
    X: Cx<Input = Goal, Result = Outcome>,
    D: Delegate<Cx = X, ProofTreeBuilder = Builder>,
{
    let mut cache = GlobalCache::<D>::new(alloc, cx);
    let mut graph = SearchGraph::<D>::new(alloc, depth);
    let mut told = Vec::new(alloc);
    for name in names.split(' ') {
        start_line(&mut told)?;
        tell_goal::<X, D>(alloc, &mut told, &mut graph, &mut cache, name)?;
        tell_stored::<X, D>(&mut told, &cache)?;
    }
    Ok(told)
}

/// What a goal comes to.
type Came = Result<Answer<Outcome>, Fault<Goal, Outcome>>;

fn tell_goal<X, D>(
    alloc: Global,
    told: &mut Vec<u8>,
    graph: &mut SearchGraph<D>,
    cache: &mut GlobalCache<D>,
    name: &str,
) -> Result<(), Fail>
where
    X: Cx<Input = Goal, Result = Outcome>,
    D: Delegate<Cx = X, ProofTreeBuilder = Builder>,
{
    let goal = goal_of(name)?;
    let mut builder = Builder::new(true);
    let came = graph.evaluate_goal(cache, goal, PathKind::Inductive, &mut builder);
    tell_came(told, name, came, builder.started())?;
    if came.is_err() {
        let held = cache.held_nodes();
        write!(told, " holding {held}")?;
    }
    tell_graph_left::<D>(told, graph)?;
    match came {
        Ok(answer) => tell_graph::<X, D>(alloc, told, cache, goal, answer),
        Err(_) => Ok(()),
    }
}

/// Whether the call left goals under evaluation on the graph, and whether it met a limit.
fn tell_graph_left<D: Delegate>(told: &mut Vec<u8>, graph: &SearchGraph<D>) -> Result<(), Fail> {
    if !graph.is_empty() || graph.debug_current_depth() > 0 {
        write!(told, " open")?;
    }
    if graph.limits_met() {
        write!(told, " limit")?;
    }
    Ok(())
}

fn tell_came(told: &mut Vec<u8>, name: &str, came: Came, started: u64) -> Result<(), Fail> {
    match came {
        Ok(answer) => {
            let outcome = answer.result;
            write!(told, "{name} {outcome} after {started}")?;
        }
        Err(Fault::Protocol(cause)) => write!(told, "{name} fault {cause} after {started}")?,
        Err(fault) => return Err(fault)?,
    }
    Ok(())
}

/// The graph of a yes, which the checker has to accept.
fn tell_graph<X, D>(
    alloc: Global,
    told: &mut Vec<u8>,
    cache: &GlobalCache<D>,
    goal: Goal,
    answer: Answer<Outcome>,
) -> Result<(), Fail>
where
    X: Cx<Input = Goal, Result = Outcome>,
    D: Delegate<Cx = X, ProofTreeBuilder = Builder>,
{
    if !is_shown::<X, D>(alloc, cache, goal, answer)? {
        return Err("no graph that the checker accepts")?;
    }
    let node = answer.node.ok_or("no node")?;
    let graph = cache.graph_of(node)?.ok_or("no graph")?;
    tell_nodes(told, graph.nodes.as_slice())
}

fn tell_nodes(told: &mut Vec<u8>, nodes: &[Node<Goal, Outcome>]) -> Result<(), Fail> {
    for node in nodes {
        tell_node(told, node)?;
    }
    Ok(())
}

fn tell_node(told: &mut Vec<u8>, node: &Node<Goal, Outcome>) -> Result<(), Fail> {
    let name = NAMES.get(node.input.0).ok_or("no name")?;
    write!(told, " [{name}")?;
    draw_replies(told, node.replies.as_slice())?;
    for edge in &node.edges {
        let letter = letter_of(edge.kind);
        let target = edge.target;
        write!(told, " {letter}:{target}")?;
    }
    write!(told, "]")?;
    Ok(())
}

fn tell_stored<X, D>(told: &mut Vec<u8>, cache: &GlobalCache<D>) -> Result<(), Fail>
where
    X: Cx<Input = Goal, Result = Outcome>,
    D: Delegate<Cx = X, ProofTreeBuilder = Builder>,
{
    for (place, name) in NAMES.iter().enumerate() {
        if let Some((outcome, required_depth)) = cache.success_of(Goal(place)) {
            write!(told, " stores {name} {outcome} {required_depth}")?;
        }
    }
    Ok(())
}

/// The scripts of the goals, with `; ` between them.
fn scripts_of(text: &str) -> Result<Scripts, Fail> {
    let mut lines = [[Line::End; 5]; 3];
    for (script, words) in lines.iter_mut().zip(text.split("; ")) {
        for (line, word) in script.iter_mut().zip(words.split(' ')) {
            *line = line_of(word)?;
        }
    }
    Ok(Scripts { lines })
}

/// The line of this word. A script without lines has the empty word.
fn line_of(word: &str) -> Result<Line, Fail> {
    Ok(match word {
        "" => Line::End,
        "enter" => Line::EnterCandidate,
        "finish" => Line::FinishCandidate,
        "ignore" => Line::Ignore(0),
        _ => {
            let (letter, name) = word.split_once(':').ok_or("no line")?;
            Line::Evaluate(kind_of(letter)?, goal_of(name)?)
        }
    })
}

fn goal_of(name: &str) -> Result<Goal, Fail> {
    Ok(Goal(match name {
        "A" => 0,
        "B" => 1,
        "C" => 2,
        _ => Err("no goal")?,
    }))
}
