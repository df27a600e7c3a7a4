//! Goals that are asked, whatever they are.

use crate::accepted::has_accepted_graph;
use delegate_parts::{Builder, Outcome};
use search_graph::graph::SearchGraph;
use search_parts::context::{Answer, Cx, Delegate, Fault, NoMemory};
use search_parts::global_cache::GlobalCache;
use search_parts::path::PathKind;
use std::alloc::Global;
use std::test::Fail;

/// How a goal is asked.
#[derive(Clone, Copy)]
pub enum Way {
    /// On a graph, as any question.
    Question,
    /// The same with a builder that records.
    Recorded,
    /// For a proof tree.
    Tree,
    /// The same with a builder that records.
    RecordedTree,
}

impl Way {
    /// The way of this name. Where there is none, it is a question.
    pub fn of(name: &str) -> Result<Way, Fail> {
        Ok(match name {
            "" | "question" => Way::Question,
            "recorded" => Way::Recorded,
            "tree" => Way::Tree,
            "recorded_tree" => Way::RecordedTree,
            _ => Err("no way to ask")?,
        })
    }
}

/// What a question came to.
#[derive(Clone, Copy)]
pub struct Answered {
    pub answer: Answer<Outcome>,
    /// How many frames it started.
    pub started: u64,
    /// Whether the depth or the number of runs was too small.
    pub limits_met: bool,
}

/// Asks the goal at this depth, on a graph of its own.
pub fn ask<X, D>(
    alloc: Global,
    cache: &mut GlobalCache<D>,
    way: Way,
    depth: usize,
    goal: X::Input,
) -> Result<Answered, Fault<X::Input, Outcome>>
where
    X: Cx<Result = Outcome>,
    D: Delegate<Cx = X, ProofTreeBuilder = Builder>,
{
    match way {
        Way::Question => ask_graph::<X, D>(alloc, cache, true, depth, goal),
        Way::Recorded => ask_graph::<X, D>(alloc, cache, false, depth, goal),
        Way::Tree => ask_for_tree::<X, D>(cache, true, depth, goal),
        Way::RecordedTree => ask_for_tree::<X, D>(cache, false, depth, goal),
    }
}

fn ask_graph<X, D>(
    alloc: Global,
    cache: &mut GlobalCache<D>,
    noop: bool,
    depth: usize,
    goal: X::Input,
) -> Result<Answered, Fault<X::Input, Outcome>>
where
    X: Cx<Result = Outcome>,
    D: Delegate<Cx = X, ProofTreeBuilder = Builder>,
{
    let mut graph = SearchGraph::<D>::new(alloc, depth);
    let mut builder = Builder::new(noop);
    let came = graph.evaluate_goal(cache, goal, PathKind::Inductive, &mut builder);
    answered_from::<X>(came, builder.started(), graph.limits_met())
}

fn ask_for_tree<X, D>(
    cache: &mut GlobalCache<D>,
    noop: bool,
    depth: usize,
    goal: X::Input,
) -> Result<Answered, Fault<X::Input, Outcome>>
where
    X: Cx<Result = Outcome>,
    D: Delegate<Cx = X, ProofTreeBuilder = Builder>,
{
    let mut builder = Builder::new(noop);
    let came = SearchGraph::<D>::evaluate_root_goal_for_proof_tree(
        cache,
        depth,
        goal,
        &mut builder,
    );
    answered_from::<X>(came, builder.started(), false)
}

fn answered_from<X: Cx<Result = Outcome>>(
    came: Result<Answer<Outcome>, Fault<X::Input, Outcome>>,
    started: u64,
    limits_met: bool,
) -> Result<Answered, Fault<X::Input, Outcome>> {
    match came {
        Ok(answer) => Ok(Answered {
            answer,
            started,
            limits_met,
        }),
        Err(fault) => Err(fault),
    }
}

/// Whether the answer is shown: a definite one has to name a node whose graph the checker accepts, and any other none.
pub fn is_shown<X, D>(
    alloc: Global,
    cache: &GlobalCache<D>,
    goal: X::Input,
    answer: Answer<Outcome>,
) -> Result<bool, NoMemory>
where
    X: Cx<Result = Outcome>,
    D: Delegate<Cx = X, ProofTreeBuilder = Builder>,
{
    let Some(node) = answer.node else {
        return Ok(!is_definite(answer.result));
    };
    let mut builder = Builder::new(true);
    has_accepted_graph::<X, D>(
        alloc,
        cache,
        goal,
        answer.result.verdict(),
        node,
        &mut builder,
    )
}

/// Whether the outcome is yes or no.
pub fn is_definite(outcome: Outcome) -> bool {
    matches!(outcome, Outcome::Yes | Outcome::No)
}
