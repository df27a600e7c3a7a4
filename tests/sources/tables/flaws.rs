//! Graphs made by hand that the check of graphs must refuse, beside ones that it must accept.
//!
//! A run has a table and then a line `shown`: the result of all nodes, the nodes' goals in the order of their places, and the
//! edges, each with its place, its question and the place that it leads to. It says what is wrong with that as a graph of A.

use crate::tables::letters::kind_of;
use crate::tables::plain_graph::{ShownEdge, ShownGraph, ShownNode};
use delegate_parts::Outcome;
use rule_tables::Rules;
use std::alloc::Global;
use std::test::Fail;

/// What is wrong with the graph.
pub fn tell(alloc: Global, run: &str) -> Result<Vec<u8>, Fail> {
    let (table, shown) = run.split_once("\nshown ").ok_or("no graph")?;
    let flaw = flaw_of(alloc, table.as_bytes(), shown)?;
    Ok(flaw.unwrap_or("nothing").as_bytes().to_vec(alloc)?)
}

fn flaw_of(alloc: Global, table: &[u8], shown: &str) -> Result<Option<&'static str>, Fail> {
    let rules = Rules::read(alloc, table)?;
    flaw_of_shown(alloc, &rules, shown)
}

fn flaw_of_shown(alloc: Global, rules: &Rules, shown: &str) -> Result<Option<&'static str>, Fail> {
    let (outcome, shown) = shown.split_once(' ').ok_or("no result")?;
    let outcome = outcome_of(outcome)?;
    let goal = rules.goal(b"A").ok_or("no goal")?;
    graph_of(alloc, rules, outcome, shown)?.flaw(rules, goal, outcome)
}

fn outcome_of(word: &str) -> Result<Outcome, Fail> {
    Ok(match word {
        "yes" => Outcome::Yes,
        "no" => Outcome::No,
        "maybe" => Outcome::Maybe,
        _ => Err("no result")?,
    })
}

fn graph_of(
    alloc: Global,
    rules: &Rules,
    outcome: Outcome,
    shown: &str,
) -> Result<ShownGraph, Fail> {
    let mut graph = ShownGraph {
        nodes: Vec::new(alloc),
        edges: Vec::new(alloc),
    };
    let (names, edges) = shown.split_once(' ').unwrap_or((shown, ""));
    add_nodes(&mut graph.nodes, rules, outcome, names)?;
    add_edges(&mut graph.edges, rules, edges)?;
    Ok(graph)
}

fn add_nodes(
    nodes: &mut Vec<ShownNode>,
    rules: &Rules,
    outcome: Outcome,
    names: &str,
) -> Result<(), Fail> {
    for (place, name) in names.bytes().enumerate() {
        let goal = rules.goal(&[name]).ok_or("no goal")?;
        nodes.push(ShownNode {
            place,
            goal,
            outcome,
        })?;
    }
    Ok(())
}

fn add_edges(edges: &mut Vec<ShownEdge>, rules: &Rules, words: &str) -> Result<(), Fail> {
    for word in words.split_terminator(' ') {
        edges.push(edge_of(rules, word)?)?;
    }
    Ok(())
}

/// The edge of this word.
fn edge_of(rules: &Rules, word: &str) -> Result<ShownEdge, Fail> {
    let (source, word) = word.split_once('-').ok_or("no question")?;
    let (question, target) = word.split_once('-').ok_or("no target")?;
    let (letter, name) = question.split_once(':').ok_or("no name")?;
    Ok(ShownEdge {
        source: source.parse::<usize>()?,
        kind: kind_of(letter)?,
        goal: rules.goal(name.as_bytes()).ok_or("no goal")?,
        target: target.parse::<usize>()?,
    })
}
