//! Random changes of a graph's nodes.

use crate::chance::Chance;
use crate::searches::handed_out::copy_of;
use rule_tables::{Goal, Outcome};
use search_parts::context::{Edge, Node, Reply};
use search_parts::path::PathKind;
use std::alloc::Global;
use std::test::Fail;

/// A kind of step.
fn random_kind(chance: &mut Chance) -> PathKind {
    match chance.below(4) {
        0 => PathKind::Inductive,
        1 => PathKind::Unknown,
        2 => PathKind::Coinductive,
        _ => PathKind::ForcedAmbiguity,
    }
}

/// What a goal came to.
fn random_outcome(chance: &mut Chance) -> Outcome {
    match chance.below(4) {
        0 => Outcome::Yes,
        1 => Outcome::No,
        2 => Outcome::Maybe,
        _ => Outcome::Overflow,
    }
}

/// What a frame was replied.
fn random_reply(chance: &mut Chance) -> Reply<Outcome> {
    match chance.below(6) {
        0 => Reply::Begin,
        1 | 2 => Reply::Noted,
        _ => Reply::Answer(random_outcome(chance)),
    }
}

/// One change of the nodes at random: of a goal, a result, a reply, an edge, or of which nodes there are.
pub fn change(
    alloc: Global,
    nodes: &mut Vec<Node<Goal, Outcome>>,
    goals: &[Goal],
    chance: &mut Chance,
) -> Result<(), Fail> {
    let at = chance.below(nodes.len());
    let places = nodes.len().saturating_add(1);
    let goal = goals.get(chance.below(goals.len())).copied();
    match chance.below(12) {
        0 => nodes.truncate(at),
        1 => {
            if let Some(node) = nodes.get(at) {
                let copy = copy_of(alloc, node)?;
                nodes.push(copy)?;
            }
        }
        2 => {
            let other = chance.below(nodes.len());
            if at < nodes.len() && other < nodes.len() {
                nodes.swap(at, other);
            }
        }
        _ => {
            if let (Some(node), Some(goal)) = (nodes.get_mut(at), goal) {
                change_node(node, goal, places, chance)?;
            }
        }
    }
    Ok(())
}

/// One change of the node: of its goal, its result, a reply or an edge.
fn change_node(
    node: &mut Node<Goal, Outcome>,
    goal: Goal,
    places: usize,
    chance: &mut Chance,
) -> Result<(), Fail> {
    match chance.below(9) {
        0 => node.input = goal,
        1 => node.result = random_outcome(chance),
        2 | 3 | 4 => change_replies(&mut node.replies, chance)?,
        _ => change_edges(&mut node.edges, goal, places, chance)?,
    }
    Ok(())
}

/// A reply is dropped, added or another one.
fn change_replies(replies: &mut Vec<Reply<Outcome>>, chance: &mut Chance) -> Result<(), Fail> {
    let at = chance.below(replies.len());
    let reply = random_reply(chance);
    match chance.below(4) {
        0 => {
            if at < replies.len() {
                let _ = replies.remove(at);
            }
        }
        1 => replies.push(reply)?,
        _ => {
            if let Some(place) = replies.get_mut(at) {
                *place = reply;
            }
        }
    }
    Ok(())
}

/// An edge is dropped, doubled or swapped with another one, or has another target, kind or goal. Targets go a little
/// past the end, and now and then far past it.
fn change_edges(
    edges: &mut Vec<Edge<Goal>>,
    goal: Goal,
    places: usize,
    chance: &mut Chance,
) -> Result<(), Fail> {
    let at = chance.below(edges.len());
    let other = chance.below(edges.len());
    let target = match chance.below(16) {
        0 => usize::MAX,
        _ => chance.below(places),
    };
    let kind = random_kind(chance);
    match chance.below(7) {
        0 => {
            if at < edges.len() {
                let _ = edges.remove(at);
            }
        }
        1 => {
            if let Some(edge) = edges.get(at).copied() {
                edges.push(edge)?;
            }
        }
        2 => {
            if at < edges.len() && other < edges.len() {
                edges.swap(at, other);
            }
        }
        3 => edges.push(Edge {
            kind,
            input: goal,
            target,
        })?,
        change => {
            if let Some(edge) = edges.get_mut(at) {
                match change {
                    4 => edge.target = target,
                    5 => edge.kind = kind,
                    _ => edge.input = goal,
                }
            }
        }
    }
    Ok(())
}
