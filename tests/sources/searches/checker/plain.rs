//! A plain check of a graph, written from what a graph has to be and from the table's rules alone. It takes its time.
//!
//! It plays each run again by its replies, since it has to agree with the checker on any list of nodes. The plain check of
//! `tests/sources/tables` never looks at replies: there the edges alone have to show the goal. Only the search for closed
//! walks is alike, and neither check has a part of the other, on purpose.

use rule_tables::{Candidate, Candidates, Goal, Outcome, Rules};
use search_parts::context::{Edge, Node, Reply};
use search_parts::path::PathKind;
use std::alloc::Global;
use std::test::Fail;

/// A question of a candidate, and what it was answered.
#[derive(Clone, Copy)]
struct Answered {
    is_marked: bool,
    kind: PathKind,
    goal: Goal,
    outcome: Outcome,
}

/// What the replies say of a goal's candidates.
#[derive(Clone, Copy)]
struct Tried {
    some_holds: bool,
    each_fails: bool,
    /// Whether marked candidates no longer count: an unmarked one holds.
    ignores_marked: bool,
    /// How many candidates are marked.
    marked: usize,
}

/// Whether the nodes are a graph of the goal, which shows that it comes to this outcome.
pub fn is_graph(
    alloc: Global,
    rules: &Rules,
    nodes: &[Node<Goal, Outcome>],
    goal: Goal,
    outcome: Outcome,
) -> Result<bool, Fail> {
    let is_definite = matches!(outcome, Outcome::Yes | Outcome::No);
    let Some(root) = nodes.first() else {
        return Ok(false);
    };
    if !is_definite || root.input != goal {
        return Ok(false);
    }
    for node in nodes {
        if node.result != outcome || !leads_on(nodes, node) || !is_run(alloc, rules, node)? {
            return Ok(false);
        }
    }
    Ok(!has_wrong_walk(alloc, nodes, outcome)?)
}

/// Whether each of the node's edges leads to a node of the goal that it asks.
fn leads_on(nodes: &[Node<Goal, Outcome>], node: &Node<Goal, Outcome>) -> bool {
    for edge in &node.edges {
        match nodes.get(edge.target) {
            Some(target) if target.input == edge.input => {}
            _ => return false,
        }
    }
    true
}

/// Whether the replies are those of a run that comes to the node's result and rests on its edges: to the begin, to each
/// candidate, and to each one that is ignored.
fn is_run(alloc: Global, rules: &Rules, node: &Node<Goal, Outcome>) -> Result<bool, Fail> {
    let mut replies = Replies {
        left: node.replies.as_slice(),
    };
    let mut answers = Vec::new(alloc);
    let Some(tried) = replies.tried(&rules.candidates(node.input), &mut answers)? else {
        return Ok(false);
    };
    let ignored = if tried.ignores_marked {
        tried.marked
    } else {
        0
    };
    let outcome = match (tried.some_holds, tried.each_fails) {
        (true, _) => Outcome::Yes,
        (false, true) => Outcome::No,
        (false, false) => Outcome::Maybe,
    };
    Ok(
        node.result == outcome
            && replies.are_noted(ignored)
            && rests_on(answers.as_slice(), node, tried.ignores_marked),
    )
}

/// Whether the node's edges are the questions that were answered its result, but for those of ignored candidates.
fn rests_on(answers: &[Answered], node: &Node<Goal, Outcome>, ignores_marked: bool) -> bool {
    let mut edges = node.edges.as_slice();
    for answered in answers {
        if answered.outcome != node.result || (ignores_marked && answered.is_marked) {
            continue;
        }
        let Some((edge, rest)) = edges.split_first() else {
            return false;
        };
        if edge.kind != answered.kind || edge.input != answered.goal {
            return false;
        }
        edges = rest;
    }
    edges.is_empty()
}

/// The replies that were not looked at yet, the oldest first.
#[derive(Drop)]
struct Replies<'a> {
    left: &'a [Reply<Outcome>],
}

impl Replies<'_> {
    fn next(&mut self) -> Option<Reply<Outcome>> {
        let (first, rest) = self.left.split_first()?;
        self.left = rest;
        Some(*first)
    }

    /// What the candidates came to, if these replies come next: to the begin, and to each candidate.
    fn tried(
        &mut self,
        candidates: &Candidates<'_>,
        answers: &mut Vec<Answered>,
    ) -> Result<Option<Tried>, Fail> {
        if self.next() != Some(Reply::Begin) {
            return Ok(None);
        }
        let mut tried = Tried {
            some_holds: false,
            each_fails: true,
            ignores_marked: false,
            marked: 0,
        };
        for place in 0..candidates.count() {
            let Some(candidate) = candidates.get(place) else {
                return Ok(None);
            };
            let Some((holds, fails)) = self.answers_to(&candidate, answers)? else {
                return Ok(None);
            };
            let is_marked = candidate.is_marked();
            tried.some_holds |= holds;
            tried.each_fails &= fails;
            tried.ignores_marked |= holds && !is_marked;
            tried.marked = tried.marked.saturating_add(usize::from(is_marked));
        }
        Ok(Some(tried))
    }

    /// Whether the candidate holds and whether it fails, if these replies come next: to its begin, its questions and its
    /// end.
    fn answers_to(
        &mut self,
        candidate: &Candidate<'_>,
        answers: &mut Vec<Answered>,
    ) -> Result<Option<(bool, bool)>, Fail> {
        if self.next() != Some(Reply::Noted) {
            return Ok(None);
        }
        let mut holds = true;
        let mut fails = false;
        for question in candidate.questions() {
            let Some(Reply::Answer(outcome)) = self.next() else {
                return Ok(None);
            };
            holds &= outcome == Outcome::Yes;
            fails |= outcome == Outcome::No;
            answers.push(Answered {
                is_marked: candidate.is_marked(),
                kind: question.kind,
                goal: question.goal,
                outcome,
            })?;
        }
        Ok((self.next() == Some(Reply::Noted)).then_some((holds, fails)))
    }

    /// Whether so many replies are left, each to a note.
    fn are_noted(&self, count: usize) -> bool {
        for reply in self.left {
            if *reply != Reply::Noted {
                return false;
            }
        }
        self.left.len() == count
    }
}

/// Whether some closed walk is of another kind than the outcome's: coinductive for yes, inductive for no. Such a walk
/// has an edge of a greater kind, or has edges of lesser kinds alone.
fn has_wrong_walk(
    alloc: Global,
    nodes: &[Node<Goal, Outcome>],
    outcome: Outcome,
) -> Result<bool, Fail> {
    let kind = match outcome {
        Outcome::Yes => PathKind::Coinductive,
        Outcome::No | Outcome::Maybe | Outcome::Overflow => PathKind::Inductive,
    };
    for (source, node) in nodes.iter().enumerate() {
        for edge in &node.edges {
            let is_wrong = if edge.kind > kind {
                reaches(alloc, nodes, edge.target, source, PathKind::ForcedAmbiguity)?
            } else {
                edge.kind < kind
                    && reaches(
                        alloc,
                        nodes,
                        edge.target,
                        source,
                        edge.kind.max(PathKind::Unknown),
                    )?
            };
            if is_wrong {
                return Ok(true);
            }
        }
    }
    Ok(false)
}

/// Whether a walk over edges of kinds up to this one leads from one place to the other.
fn reaches(
    alloc: Global,
    nodes: &[Node<Goal, Outcome>],
    from: usize,
    to: usize,
    most: PathKind,
) -> Result<bool, Fail> {
    let mut reached = vec![in alloc; from]?;
    for at in 0..=nodes.len() {
        let Some(place) = reached.get(at).copied() else {
            return Ok(false);
        };
        if place == to {
            return Ok(true);
        }
        let Some(node) = nodes.get(place) else {
            continue;
        };
        for edge in &node.edges {
            if edge.kind <= most && !reached.contains(&edge.target) {
                reached.push(edge.target)?;
            }
        }
    }
    Ok(false)
}
