//! Questions over tables, one after the other, and the same as lists.

use crate::tables::asked::{Answered, Way, ask, is_shown};
use delegate_parts::{Builder, Outcome};
use rule_tables::Goal;
use search_graph::graph::SearchGraph;
use search_parts::context::{Answer, Cx, Delegate, Fault};
use search_parts::global_cache::GlobalCache;
use search_parts::path::PathKind;
use std::alloc::Global;
use std::test::Fail;

/// What the questions come to over one cache where they are asked in these ways, or what is wrong with that: each answer of
/// yes or no has to be shown by its graph.
pub fn answers_to<X, D>(
    alloc: Global,
    cache: &mut GlobalCache<D>,
    questions: &[(usize, Goal)],
    ways: &str,
) -> Result<Result<Vec<Answered>, &'static str>, Fail>
where
    X: Cx<Input = Goal, Result = Outcome>,
    D: Delegate<Cx = X, ProofTreeBuilder = Builder>,
{
    let mut ways = ways.split(' ');
    let mut answers = Vec::new(alloc);
    for (depth, goal) in questions {
        let way = Way::of(ways.next().unwrap_or(""))?;
        let answered = ask::<X, D>(alloc, cache, way, *depth, *goal)?;
        if !is_shown::<X, D>(alloc, cache, *goal, answered.answer)? {
            return Ok(Err("no graph that the checker accepts"));
        }
        answers.push(answered)?;
    }
    Ok(Ok(answers))
}

/// Whether the questions get these answers over another cache as lists, with the same nodes and as many frames together:
/// the first so many as one list, and the others as another. A list without questions follows, which adds none.
pub fn lists_have<X, D>(
    alloc: Global,
    cx: X,
    questions: &[(usize, Goal)],
    first: usize,
    answers: &[Answered],
) -> Result<bool, Fail>
where
    X: Cx<Input = Goal, Result = Outcome>,
    D: Delegate<Cx = X, ProofTreeBuilder = Builder>,
{
    let mut queries = Vec::new(alloc);
    for (depth, goal) in questions {
        queries.push((*depth, *goal, PathKind::Inductive))?;
    }
    let (first, others) = queries.split_at_checked(first).ok_or("no question")?;
    let mut cache = GlobalCache::<D>::new(alloc, cx);
    let mut builder = Builder::new(true);
    let mut given = Vec::new(alloc);
    for list in [first, others, &[]] {
        SearchGraph::<D>::evaluate_list(&mut cache, list, &mut builder, &mut given)?;
    }
    are_same(given.as_slice(), builder.started(), answers)
}

/// What a question of a list comes to.
type Given = Result<Answer<Outcome>, Fault<Goal, Outcome>>;

/// Whether the lists gave these answers, and started as many frames.
fn are_same(given: &[Given], started: u64, answers: &[Answered]) -> Result<bool, Fail> {
    if given.len() != answers.len() {
        return Ok(false);
    }
    let mut wanted_started = 0u64;
    for (answer, wanted) in given.iter().zip(answers.iter()) {
        if (*answer)? != wanted.answer {
            return Ok(false);
        }
        wanted_started = wanted_started.saturating_add(wanted.started);
    }
    Ok(wanted_started == started)
}
