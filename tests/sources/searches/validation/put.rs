//! Results that a caller puts into a cache, beside what the search stores there.

use search_parts::context::{Cx, Delegate, NoMemory, Reply, Request, Verdict};
use search_parts::global_cache::GlobalCache;
use search_parts::parts::EvaluationResult;
use std::test::Fail;

/// The goal that this goal asks first, if it does so before anything else, or in a candidate that it begins with.
fn first_asked<D: Delegate>(
    cx: D::Cx,
    goal: <D::Cx as Cx>::Input,
    inspect: &mut D::ProofTreeBuilder,
) -> Result<Option<<D::Cx as Cx>::Input>, NoMemory> {
    let mut frame = D::start(cx, goal, inspect)?;
    match D::step(&mut frame, Reply::Begin, inspect)? {
        Request::Evaluate(_, other) => Ok(Some(other)),
        Request::EnterCandidate => match D::step(&mut frame, Reply::Noted, inspect)? {
            Request::Evaluate(_, other) => Ok(Some(other)),
            _ => Ok(None),
        },
        _ => Ok(None),
    }
}

/// Stores a result that is neither yes nor no, of a goal that asks itself, or another one that asks it. Such a goal has no
/// rank, so each such result may be stored of it, as `insert` requires. The result has no heads and no node.
pub fn put_neither<D: Delegate>(
    cache: &mut GlobalCache<D>,
    goal: <D::Cx as Cx>::Input,
    evaluation_result: EvaluationResult<D::Cx>,
    inspect: &mut D::ProofTreeBuilder,
) -> Result<(), Fail> {
    let cx = cache.cx();
    let Some(other) = first_asked::<D>(cx, goal, inspect)? else {
        return Err("a goal that asks none first")?;
    };
    let Some(back) = first_asked::<D>(cx, other, inspect)? else {
        return Err("a goal that may have a rank")?;
    };
    let is_same = back == goal;
    if !is_same {
        return Err("a goal that may have a rank")?;
    }
    if cx.sort(evaluation_result.result) != Verdict::Neither {
        return Err("a result that needs a graph")?;
    }
    let token = cx.dep_node(goal);
    if cache.insert(goal, evaluation_result, token).is_err() {
        return Err("a result that is not stored")?;
    }
    Ok(())
}
