//! Graphs made by hand, and what the checker says of them.

use crate::searches::handed_out::{Nodes, is_accepted};
use rule_tables::Outcome::{No, Yes};
use rule_tables::{Goal, Outcome, Rules};
use search_parts::context::Reply::{Answer, Begin, Noted};
use search_parts::context::{Edge, Node, Reply, Verdict};
use search_parts::path::PathKind;
use search_parts::path::PathKind::{Coinductive, ForcedAmbiguity, Inductive, Unknown};
use std::alloc::Global;
use std::test::Fail;

/// A node of the goal A: its replies, the kind and target of each edge, its result.
type Drawn = (
    &'static [Reply<Outcome>],
    &'static [(PathKind, usize)],
    Outcome,
);

/// The replies of a run with one candidate of one question, which was answered yes.
const ANSWERED_YES: &[Reply<Outcome>] = &[Begin, Noted, Answer(Yes), Noted];

const ANSWERED_NO: &[Reply<Outcome>] = &[Begin, Noted, Answer(No), Noted];

/// A marked candidate of one question, one without questions, and the marked one ignored.
const IGNORED: &[Reply<Outcome>] = &[Begin, Noted, Answer(Yes), Noted, Noted, Noted, Noted];

/// What the row shows, a table, the nodes, the verdict that they are to show of A, and whether they do.
type Row = (&'static str, &'static str, &'static [Drawn], Verdict, bool);

const ROWS: [Row; 22] = [
    (
        "a coinductive cycle of a yes",
        "rule A = c:A",
        &[(ANSWERED_YES, &[(Coinductive, 0)], Yes)],
        Verdict::Yes,
        true,
    ),
    (
        "the other verdict",
        "rule A = c:A",
        &[(ANSWERED_YES, &[(Coinductive, 0)], Yes)],
        Verdict::No,
        false,
    ),
    (
        "a target past the end",
        "rule A = c:A",
        &[(ANSWERED_YES, &[(Coinductive, 1)], Yes)],
        Verdict::Yes,
        false,
    ),
    (
        "a missing edge",
        "rule A = c:A",
        &[(ANSWERED_YES, &[], Yes)],
        Verdict::Yes,
        false,
    ),
    (
        "an edge too many",
        "rule A = c:A",
        &[(ANSWERED_YES, &[(Coinductive, 0), (Coinductive, 0)], Yes)],
        Verdict::Yes,
        false,
    ),
    (
        "another result than that of the replies",
        "rule A = c:A",
        &[(ANSWERED_YES, &[(Coinductive, 0)], No)],
        Verdict::Yes,
        false,
    ),
    (
        "a reply too few",
        "rule A = c:A",
        &[(&[Begin, Noted, Answer(Yes)], &[(Coinductive, 0)], Yes)],
        Verdict::Yes,
        false,
    ),
    (
        "a reply too many",
        "rule A = c:A",
        &[(
            &[Begin, Noted, Answer(Yes), Noted, Noted],
            &[(Coinductive, 0)],
            Yes,
        )],
        Verdict::Yes,
        false,
    ),
    (
        "a walk of forced ambiguity",
        "rule A = f:A",
        &[(ANSWERED_YES, &[(ForcedAmbiguity, 0)], Yes)],
        Verdict::Yes,
        false,
    ),
    (
        "an inductive walk",
        "rule A = i:A",
        &[(ANSWERED_YES, &[(Inductive, 0)], Yes)],
        Verdict::Yes,
        false,
    ),
    (
        "an unknown walk",
        "rule A = u:A",
        &[(ANSWERED_YES, &[(Unknown, 0)], Yes)],
        Verdict::Yes,
        false,
    ),
    (
        "an inductive walk of a no",
        "rule A = i:A",
        &[(ANSWERED_NO, &[(Inductive, 0)], No)],
        Verdict::No,
        true,
    ),
    (
        "an unknown walk of a no",
        "rule A = u:A",
        &[(ANSWERED_NO, &[(Unknown, 0)], No)],
        Verdict::No,
        false,
    ),
    (
        "what is asked in an ignored candidate is no edge",
        "rule ~A = i:A\nrule A =",
        &[(IGNORED, &[], Yes)],
        Verdict::Yes,
        true,
    ),
    (
        "an edge of an ignored candidate",
        "rule ~A = i:A\nrule A =",
        &[(IGNORED, &[(Inductive, 0)], Yes)],
        Verdict::Yes,
        false,
    ),
    (
        "no graph shows that neither is known",
        "rule A = c:A",
        &[(ANSWERED_YES, &[(Coinductive, 0)], Yes)],
        Verdict::Neither,
        false,
    ),
    ("no node shows no yes", "rule A =", &[], Verdict::Yes, false),
    ("no node shows no no", "rule A =", &[], Verdict::No, false),
    (
        "no node shows nothing of neither",
        "rule A =",
        &[],
        Verdict::Neither,
        false,
    ),
    // A node counts, whether it is reached or not.
    (
        "a node of another result that is not reached",
        "rule A = c:A",
        &[
            (ANSWERED_YES, &[(Coinductive, 0)], Yes),
            (ANSWERED_YES, &[(Coinductive, 0)], No),
        ],
        Verdict::Yes,
        false,
    ),
    (
        "a node that is not reached",
        "rule A = c:A",
        &[
            (ANSWERED_YES, &[(Coinductive, 0)], Yes),
            (ANSWERED_YES, &[(Coinductive, 0)], Yes),
        ],
        Verdict::Yes,
        true,
    ),
    (
        "a closed walk through two nodes is of the greatest kind on it",
        "rule A = i:A\nrule A = c:A",
        &[
            (
                &[Begin, Noted, Answer(Yes), Noted, Noted, Answer(No), Noted],
                &[(Inductive, 1)],
                Yes,
            ),
            (
                &[Begin, Noted, Answer(No), Noted, Noted, Answer(Yes), Noted],
                &[(Coinductive, 0)],
                Yes,
            ),
        ],
        Verdict::Yes,
        true,
    ),
];

#[test]
fn graphs_made_by_hand_are_told_apart(rt: HostRuntime) -> Result<(), Fail> {
    for (name, text, drawn, verdict, wanted) in ROWS {
        let accepted = is_shown_by(rt.alloc(), text, drawn, verdict)?;
        assert_eq!(rt; accepted, wanted, "{name}");
    }
    Ok(())
}

/// Whether the checker accepts the nodes as a graph that shows this of A.
fn is_shown_by(alloc: Global, text: &str, drawn: &[Drawn], verdict: Verdict) -> Result<bool, Fail> {
    let rules = Rules::read(alloc, text.as_bytes())?;
    let goal = rules.goal(b"A").ok_or("no goal")?;
    let nodes = nodes_of(alloc, goal, drawn)?;
    is_accepted(alloc, &rules, nodes, goal, verdict)
}

fn nodes_of(alloc: Global, goal: Goal, drawn: &[Drawn]) -> Result<Nodes, Fail> {
    let mut nodes = Vec::new(alloc);
    for node in drawn {
        nodes.push(node_of(alloc, goal, node)?)?;
    }
    Ok(nodes)
}

fn node_of(alloc: Global, goal: Goal, drawn: &Drawn) -> Result<Node<Goal, Outcome>, Fail> {
    let (replies, steps, outcome) = *drawn;
    let mut edges = Vec::new(alloc);
    for (kind, target) in steps {
        edges.push(Edge {
            kind: *kind,
            input: goal,
            target: *target,
        })?;
    }
    Ok(Node {
        input: goal,
        replies: replies.to_vec(alloc)?,
        edges,
        result: outcome,
    })
}

#[test]
fn outcomes_are_sorted(rt: HostRuntime) {
    for (outcome, verdict) in [
        (Yes, Verdict::Yes),
        (No, Verdict::No),
        (Outcome::Overflow, Verdict::Neither),
    ] {
        assert_eq!(rt; outcome.verdict(), verdict, "of {outcome}");
    }
}
