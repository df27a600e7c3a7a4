//! Graphs that are handed out for answers, drawn on lines.
//!
//! A line stands for a node: the question that leads to it, its result, and its replies, the oldest first. The nodes that
//! its edges lead to follow in the edges' order, each with one more space in front. Where an edge leads back to a node
//! above, its line says how many edges up that stands. An answer without a node is its result alone.

use crate::tables::letters::letter_of;
use delegate_parts::{Builder, Outcome};
use rule_tables::{Goal, Rules};
use search_parts::context::{Answer, Cx, Delegate, Edge, Node, Reply};
use search_parts::global_cache::GlobalCache;
use search_parts::path::PathKind;
use std::io::Write;
use std::test::Fail;

/// More nodes than any graph that is drawn has, each counted as often as an edge leads to it.
const MOST_NODES: usize = 32;

/// Ends the line before, if there is one.
pub fn start_line(lines: &mut Vec<u8>) -> Result<(), Fail> {
    if !lines.is_empty() {
        lines.push(b'\n')?;
    }
    Ok(())
}

/// The graph of the goal's answer.
pub fn write_graph<X, D>(
    drawn: &mut Vec<u8>,
    cache: &GlobalCache<D>,
    rules: &Rules,
    goal: Goal,
    answer: Answer<Outcome>,
) -> Result<(), Fail>
where
    X: Cx<Input = Goal, Result = Outcome>,
    D: Delegate<Cx = X, ProofTreeBuilder = Builder>,
{
    write!(drawn, "\ngraph")?;
    match answer.node {
        Some(root) => {
            let handed = cache.graph_of(root)?.ok_or("no graph")?;
            draw_graph(drawn, handed.nodes.as_slice(), rules, goal)
        }
        None => {
            start_line(drawn)?;
            draw_result(drawn, rules, PathKind::Inductive, goal, answer.result)
        }
    }
}

/// The graph of the goal, its root and the nodes that this reaches.
fn draw_graph(
    drawn: &mut Vec<u8>,
    nodes: &[Node<Goal, Outcome>],
    rules: &Rules,
    goal: Goal,
) -> Result<(), Fail> {
    let root = Edge {
        kind: PathKind::Inductive,
        input: goal,
        target: 0,
    };
    let mut left = vec![in *drawn.allocator(); (0usize, root)]?;
    let mut above = Vec::new(*drawn.allocator());
    for _ in 0..MOST_NODES {
        let Some((depth, edge)) = left.pop() else {
            return Ok(());
        };
        above.truncate(depth);
        draw_edge(drawn, nodes, rules, (depth, edge), &mut above, &mut left)?;
    }
    Err("more nodes than expected")?
}

/// The line of the node that the edge leads to at its depth. The edges of a node that does not stand above are left to draw.
fn draw_edge(
    drawn: &mut Vec<u8>,
    nodes: &[Node<Goal, Outcome>],
    rules: &Rules,
    drawn_next: (usize, Edge<Goal>),
    above: &mut Vec<usize>,
    left: &mut Vec<(usize, Edge<Goal>)>,
) -> Result<(), Fail> {
    let (depth, edge) = drawn_next;
    let node = nodes.get(edge.target).ok_or("no node")?;
    draw_node(drawn, rules, depth, edge, node)?;
    if let Some(at) = place_of(above.as_slice(), edge.target) {
        let up = depth.saturating_sub(at);
        write!(drawn, " {up} up")?;
        return Ok(());
    }
    draw_replies(drawn, node.replies.as_slice())?;
    above.push(edge.target)?;
    for next in node.edges.iter().rev() {
        left.push((depth.saturating_add(1), *next))?;
    }
    Ok(())
}

/// Where the list has this element.
fn place_of(list: &[usize], wanted: usize) -> Option<usize> {
    for (place, element) in list.iter().enumerate() {
        if *element == wanted {
            return Some(place);
        }
    }
    None
}

/// The start of the line for the node that the edge leads to.
fn draw_node(
    drawn: &mut Vec<u8>,
    rules: &Rules,
    depth: usize,
    edge: Edge<Goal>,
    node: &Node<Goal, Outcome>,
) -> Result<(), Fail> {
    if node.input != edge.input {
        return Err("a node of another goal")?;
    }
    start_line(drawn)?;
    for _ in 0..depth {
        drawn.push(b' ')?;
    }
    draw_result(drawn, rules, edge.kind, edge.input, node.result)?;
    drawn.push(b':')?;
    Ok(())
}

/// The replies of a node.
pub fn draw_replies(drawn: &mut Vec<u8>, replies: &[Reply<Outcome>]) -> Result<(), Fail> {
    for reply in replies {
        match reply {
            Reply::Begin => write!(drawn, " begin")?,
            Reply::Answer(outcome) => write!(drawn, " {outcome}")?,
            Reply::Noted => write!(drawn, " noted")?,
        }
    }
    Ok(())
}

/// A question and its result.
fn draw_result(
    drawn: &mut Vec<u8>,
    rules: &Rules,
    kind: PathKind,
    goal: Goal,
    outcome: Outcome,
) -> Result<(), Fail> {
    let letter = letter_of(kind);
    write!(drawn, "{letter}:")?;
    drawn.extend_from_slice(rules.name(goal).ok_or("no name")?)?;
    write!(drawn, " {outcome}")?;
    Ok(())
}
