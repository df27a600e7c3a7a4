//! Large graphs made by a rule. That time is linear in their size, and that they take no native stack, `tests/explain` shows of
//! the same graphs a hundred times as large.

use crate::searches::handed_out::{Nodes, is_accepted};
use rule_tables::{Goal, Outcome, Rules};
use search_parts::context::{Edge, Node, Reply};
use search_parts::path::PathKind;
use std::alloc::Global;
use std::io::Write;
use std::test::Fail;

/// How many nodes the largest graph has.
const NODES: usize = 2_000;

/// How many edges one node has.
const EDGES: usize = 1_000;

/// Nodes of a goal, each of which asks that goal by steps of these kinds. Each step leads further by its own number of
/// places, round and round.
struct Ring {
    /// What the ring shows.
    name: &'static str,
    nodes: usize,
    steps: &'static [(PathKind, usize)],
    /// How often the rule asks by all these steps, one after the other.
    rounds: usize,
    /// How many of its last questions a node leaves out.
    left_out: usize,
    outcome: Outcome,
    is_graph: bool,
}

const RINGS: [Ring; 6] = [
    Ring {
        name: "coinductive cycles of a yes",
        nodes: NODES,
        steps: &[(PathKind::Coinductive, 1), (PathKind::Coinductive, 701)],
        rounds: 1,
        left_out: 0,
        outcome: Outcome::Yes,
        is_graph: true,
    },
    Ring {
        name: "inductive cycles of a no",
        nodes: NODES,
        steps: &[(PathKind::Inductive, 1)],
        rounds: 1,
        left_out: 0,
        outcome: Outcome::No,
        is_graph: true,
    },
    Ring {
        name: "a cycle of forced ambiguity",
        nodes: NODES,
        steps: &[
            (PathKind::Coinductive, 1),
            (PathKind::ForcedAmbiguity, NODES - 1),
        ],
        rounds: 1,
        left_out: 0,
        outcome: Outcome::Yes,
        is_graph: false,
    },
    Ring {
        name: "an inductive cycle beside coinductive ones",
        nodes: NODES,
        steps: &[(PathKind::Coinductive, 1), (PathKind::Inductive, 701)],
        rounds: 1,
        left_out: 0,
        outcome: Outcome::Yes,
        is_graph: false,
    },
    Ring {
        name: "one node, to which each of many edges leads back",
        nodes: 1,
        steps: &[(PathKind::Coinductive, 0)],
        rounds: EDGES,
        left_out: 0,
        outcome: Outcome::Yes,
        is_graph: true,
    },
    Ring {
        name: "one node with an answer too few",
        nodes: 1,
        steps: &[(PathKind::Coinductive, 0)],
        rounds: EDGES,
        left_out: 1,
        outcome: Outcome::Yes,
        is_graph: false,
    },
];

#[test]
fn large_graphs_are_checked(rt: HostRuntime) -> Result<(), Fail> {
    for ring in &RINGS {
        let accepted = is_ring_accepted(rt.alloc(), ring)?;
        assert_eq!(rt; accepted, ring.is_graph, "{}", ring.name);
    }
    Ok(())
}

/// Whether the checker accepts the ring.
fn is_ring_accepted(alloc: Global, ring: &Ring) -> Result<bool, Fail> {
    let text = rule_of(alloc, ring)?;
    let rules = Rules::read(alloc, text.as_slice())?;
    let goal = rules.goal(b"A").ok_or("no goal")?;
    let nodes = nodes_of(alloc, ring, goal)?;
    is_accepted(alloc, &rules, nodes, goal, ring.outcome.verdict())
}

/// The nodes of the ring.
fn nodes_of(alloc: Global, ring: &Ring, goal: Goal) -> Result<Nodes, Fail> {
    let mut nodes = Vec::new(alloc);
    for place in 0..ring.nodes {
        nodes.push(node_of(alloc, ring, goal, place)?)?;
    }
    Ok(nodes)
}

/// The rule of the ring's goal.
fn rule_of(alloc: Global, ring: &Ring) -> Result<Vec<u8>, Fail> {
    let mut text = Vec::new(alloc);
    text.extend_from_slice(b"rule A =")?;
    for _ in 0..ring.rounds {
        add_questions(&mut text, ring.steps)?;
    }
    Ok(text)
}

fn add_questions(text: &mut Vec<u8>, steps: &[(PathKind, usize)]) -> Result<(), Fail> {
    for (kind, _) in steps {
        text.extend_from_slice(match kind {
            PathKind::Inductive => b" i:A",
            PathKind::Unknown => b" u:A",
            PathKind::Coinductive => b" c:A",
            PathKind::ForcedAmbiguity => b" f:A",
        })?;
    }
    Ok(())
}

/// The ring's node at this place.
fn node_of(
    alloc: Global,
    ring: &Ring,
    goal: Goal,
    place: usize,
) -> Result<Node<Goal, Outcome>, Fail> {
    let mut edges = Vec::new(alloc);
    for _ in 0..ring.rounds {
        add_edges(&mut edges, ring, goal, place)?;
    }
    edges.truncate(edges.len().saturating_sub(ring.left_out));
    Ok(Node {
        input: goal,
        replies: replies_to(alloc, edges.len(), ring.outcome)?,
        edges,
        result: ring.outcome,
    })
}

fn add_edges(
    edges: &mut Vec<Edge<Goal>>,
    ring: &Ring,
    goal: Goal,
    place: usize,
) -> Result<(), Fail> {
    for (kind, further) in ring.steps {
        let target = place.saturating_add(*further).checked_rem(ring.nodes);
        edges.push(Edge {
            kind: *kind,
            input: goal,
            target: target.unwrap_or(0),
        })?;
    }
    Ok(())
}

/// The replies of a run with one candidate of so many questions, each of which was answered this.
fn replies_to(
    alloc: Global,
    questions: usize,
    outcome: Outcome,
) -> Result<Vec<Reply<Outcome>>, Fail> {
    let mut replies = Vec::new(alloc);
    replies.push(Reply::Begin)?;
    replies.push(Reply::Noted)?;
    for _ in 0..questions {
        replies.push(Reply::Answer(outcome))?;
    }
    replies.push(Reply::Noted)?;
    Ok(replies)
}
