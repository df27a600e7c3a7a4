//! Graphs that were handed out, changed at random: the checker says of each what the plain check says.

use crate::chance::Chance;
use crate::searches::checker::changes::change;
use crate::searches::checker::plain::is_graph;
use crate::searches::handed_out::{HandedOut, Nodes, copy_of, graph_for, is_accepted};
use rule_tables::{Goal, Outcome, Rules};
use search_parts::context::Node;
use std::alloc::Global;
use std::process::Abort;
use std::test::Fail;

/// Tables whose answers have graphs of all shapes: trees, cycles of both kinds, reruns, candidates that are ignored.
const TABLES: [&str; 10] = [
    "rule A = c:A\n",
    "rule A = i:B\nrule B = c:A\n",
    "rule A = c:B c:D\nrule B = c:D\nrule D = c:B c:A\n",
    "rule A = c:P\nrule P = c:A\nrule P = f:P\n",
    "rule A = i:B\nrule A = c:D\nrule B = c:D i:A\nrule D = i:B\n",
    "rule ~A = i:A\nrule A =\n",
    "rule ~A = u:B\nrule A = i:B\nrule B =\n",
    "rule A = i:B\nrule A = c:C i:Q\nrule B = i:A\nrule C = i:B i:Q\n",
    "rule A = u:B f:C\nrule B = c:B\nrule C = i:D c:D\nrule D = c:C\nrule D =\n",
    "rule A = i:A\nrule A = i:B u:Q\nrule ~B = i:A\nrule B = i:B f:Q\n",
];

/// How many changed graphs of each table are laid before both.
const CHANGED: u32 = 250;

/// Of how many changed graphs both said the same, and how many of these they accepted.
#[derive(Clone, Copy)]
struct Counts {
    agreed: u32,
    accepted: u32,
}

impl Counts {
    /// Counts a changed graph, which both accept or refuse where they agree on it.
    fn note(&mut self, agreed: Option<bool>) {
        if let Some(is_graph) = agreed {
            self.agreed = self.agreed.saturating_add(1);
            self.accepted = self.accepted.saturating_add(u32::from(is_graph));
        }
    }
}

#[test]
fn changed_graphs_are_told_from_graphs(rt: HostRuntime) -> Result<(), Fail> {
    for seed in 1..=4 {
        let accepted = accepted_of(&rt, seed)?;
        // Both accept some of 2,500, and refuse some.
        assert!(rt; accepted > 10 && accepted < 2000, "seed {seed}: {accepted}");
    }
    Ok(())
}

/// How many changed graphs of all tables are accepted. Both have to say the same of each.
fn accepted_of(rt: &(impl Abort + AllocGlobal), seed: u64) -> Result<u32, Fail> {
    let mut chance = Chance::new(seed);
    let mut accepted = 0u32;
    for text in TABLES {
        let counts = counts_of(rt.alloc(), text, &mut chance)?;
        assert_eq!(rt;
            counts.agreed,
            CHANGED,
            "changes of a graph of {text}, seed {seed}"
        );
        accepted = accepted.saturating_add(counts.accepted);
    }
    Ok(accepted)
}

/// Lays changed graphs of the table's goal A before the checker and the plain check.
fn counts_of(alloc: Global, text: &str, chance: &mut Chance) -> Result<Counts, Fail> {
    let rules = Rules::read(alloc, text.as_bytes())?;
    let goal = rules.goal(b"A").ok_or("no goal")?;
    let graph = graph_for(alloc, &rules, 6, goal)?;
    counts_of_changes(alloc, &rules, goal, &graph, chance)
}

fn counts_of_changes(
    alloc: Global,
    rules: &Rules,
    goal: Goal,
    graph: &HandedOut,
    chance: &mut Chance,
) -> Result<Counts, Fail> {
    let goals = goals_of(alloc, rules)?;
    let mut counts = Counts {
        agreed: 0,
        accepted: 0,
    };
    for _ in 0..CHANGED {
        let nodes = changed(alloc, graph.nodes.as_slice(), goals.as_slice(), chance)?;
        counts.note(is_agreed(alloc, rules, nodes, goal, graph.outcome)?);
    }
    Ok(counts)
}

/// Whether the nodes are a graph that shows the outcome, if the checker and the plain check say the same.
fn is_agreed(
    alloc: Global,
    rules: &Rules,
    nodes: Nodes,
    goal: Goal,
    outcome: Outcome,
) -> Result<Option<bool>, Fail> {
    let is_graph = is_graph(alloc, rules, nodes.as_slice(), goal, outcome)?;
    let is_accepted = is_accepted(alloc, rules, nodes, goal, outcome.verdict())?;
    Ok((is_accepted == is_graph).then_some(is_graph))
}

/// The goals of the table.
fn goals_of(alloc: Global, rules: &Rules) -> Result<Vec<Goal>, Fail> {
    let mut goals = Vec::new(alloc);
    for name in [b"A", b"B", b"C", b"D", b"P", b"Q"] {
        if let Some(goal) = rules.goal(name) {
            goals.push(goal)?;
        }
    }
    Ok(goals)
}

/// The nodes with one to three changes.
fn changed(
    alloc: Global,
    nodes: &[Node<Goal, Outcome>],
    goals: &[Goal],
    chance: &mut Chance,
) -> Result<Nodes, Fail> {
    let mut changed = copies_of(alloc, nodes)?;
    change_some(alloc, &mut changed, goals, chance)?;
    Ok(changed)
}

fn copies_of(alloc: Global, nodes: &[Node<Goal, Outcome>]) -> Result<Nodes, Fail> {
    let mut copies = Vec::new(alloc);
    for node in nodes {
        copies.push(copy_of(alloc, node)?)?;
    }
    Ok(copies)
}

fn change_some(
    alloc: Global,
    nodes: &mut Nodes,
    goals: &[Goal],
    chance: &mut Chance,
) -> Result<(), Fail> {
    let last = chance.below(3);
    for _ in 0..=last {
        change(alloc, nodes, goals, chance)?;
    }
    Ok(())
}
