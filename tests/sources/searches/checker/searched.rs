//! Graphs that long searches hand out: what they rest on, and that the checker accepts them. `tests/limits` has a chain of
//! 100,000 goals, whose graph is checked, too.

use crate::searches::handed_out::{HandedOut, Nodes, graph_for, is_accepted};
use rule_tables::{Goal, Outcome, Rules};
use search_parts::path::PathKind;
use std::alloc::Global;
use std::io::Write;
use std::test::Fail;

/// What goals ask.
#[derive(Clone, Copy)]
enum Shape {
    /// Each goal asks the next one; the last one holds.
    Chain,
    /// Each goal asks all of them coinductively in its first candidate, and inductively in its second one.
    AllAskAll,
}

/// What a goal came to.
#[derive(Clone, Copy, Debug, PartialEq, Eq)]
struct Found {
    outcome: Outcome,
    /// Whether the checker accepts the graph.
    is_shown: bool,
    /// How many nodes the graph has.
    nodes: usize,
    /// How many nodes the cache holds.
    held: usize,
    /// How many coinductive questions the answer rests on, and how many others.
    coinductive: usize,
    others: usize,
}

/// What the first one of so many goals comes to at this depth.
const ROWS: [(Shape, usize, usize, Found); 2] = [
    (
        Shape::Chain,
        1_000,
        1_000,
        Found {
            outcome: Outcome::Yes,
            is_shown: true,
            nodes: 1_000,
            held: 1_000,
            coinductive: 0,
            others: 1,
        },
    ),
    // The search is so long that runs are replayed. In the end the answer rests on coinductive questions alone.
    (
        Shape::AllAskAll,
        7,
        100,
        Found {
            outcome: Outcome::Yes,
            is_shown: true,
            nodes: 113,
            held: 113,
            coinductive: 7,
            others: 0,
        },
    ),
];

#[test]
fn graphs_of_long_searches_are_handed_out_and_checked(rt: HostRuntime) -> Result<(), Fail> {
    for (shape, goals, depth, wanted) in ROWS {
        let found = found_for(rt.alloc(), shape, goals, depth)?;
        assert_eq!(rt; found, wanted, "{goals} goals");
    }
    Ok(())
}

fn found_for(alloc: Global, shape: Shape, goals: usize, depth: usize) -> Result<Found, Fail> {
    let text = match shape {
        Shape::Chain => text_of_chain(alloc, goals)?,
        Shape::AllAskAll => text_of_all(alloc, goals)?,
    };
    found_in(alloc, text.as_slice(), depth)
}

fn found_in(alloc: Global, text: &[u8], depth: usize) -> Result<Found, Fail> {
    let rules = Rules::read(alloc, text)?;
    let goal = rules.goal(b"g0").ok_or("no goal")?;
    let graph = graph_for(alloc, &rules, depth, goal)?;
    found_of(alloc, &rules, goal, graph)
}

fn found_of(alloc: Global, rules: &Rules, goal: Goal, graph: HandedOut) -> Result<Found, Fail> {
    let nodes = graph.nodes.len();
    let (coinductive, others) = questions_of_first(&graph.nodes)?;
    let verdict = graph.outcome.verdict();
    Ok(Found {
        outcome: graph.outcome,
        is_shown: is_accepted(alloc, rules, graph.nodes, goal, verdict)?,
        nodes,
        held: graph.held,
        coinductive,
        others,
    })
}

/// How many coinductive edges the first node has, and how many others.
fn questions_of_first(nodes: &Nodes) -> Result<(usize, usize), Fail> {
    let first = nodes.first().ok_or("no node")?;
    let mut coinductive = 0usize;
    for edge in &first.edges {
        if edge.kind == PathKind::Coinductive {
            coinductive = coinductive.saturating_add(1);
        }
    }
    Ok((coinductive, first.edges.len().saturating_sub(coinductive)))
}

fn text_of_chain(alloc: Global, goals: usize) -> Result<Vec<u8>, Fail> {
    let mut text = Vec::new(alloc);
    let last = goals.saturating_sub(1);
    for number in 0..last {
        let next = number.saturating_add(1);
        write!(text, "rule g{number} = i:g{next}\n")?;
    }
    write!(text, "rule g{last} =\n")?;
    Ok(text)
}

fn text_of_all(alloc: Global, goals: usize) -> Result<Vec<u8>, Fail> {
    let mut text = Vec::new(alloc);
    for number in 0..goals {
        add_rule(&mut text, number, 'c', goals)?;
        add_rule(&mut text, number, 'i', goals)?;
    }
    Ok(text)
}

/// Adds a rule of the goal of this number, which asks all by steps of this kind.
fn add_rule(text: &mut Vec<u8>, number: usize, kind: char, goals: usize) -> Result<(), Fail> {
    write!(text, "rule g{number} =")?;
    for asked in 0..goals {
        write!(text, " {kind}:g{asked}")?;
    }
    text.push(b'\n')?;
    Ok(())
}
