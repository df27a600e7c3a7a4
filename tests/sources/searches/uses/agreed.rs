//! The search beside the plain fixpoint, and the checker beside both.

use crate::accepted::has_accepted_graph;
use crate::searches::uses::plain::{Pairs, pairs_below};
use delegate_parts::{Builder, Lends, Outcome};
use question_lists::{ContextOf, Listed, ListsContext};
use search_graph::graph::SearchGraph;
use search_parts::context::{Cx, Delegate, Verdict};
use search_parts::global_cache::GlobalCache;
use search_parts::path::PathKind;
use std::alloc::Global;
use std::test::Fail;
use structural_types::{Pair, PairsOf, Subtyping, Types, TypesDelegate};

/// Two types, by their numbers, and whether the left one is below the right one.
pub type Asked = (usize, usize, bool);

/// The pairs of the first so many types of which the left one is below the right one, if the search says so, too, and the
/// checker accepts the graph of each answer.
pub fn agreed(alloc: Global, types: &Types, size: usize) -> Result<Pairs, Fail> {
    let pairs = pairs_below(alloc, types, size)?;
    let asked = pairs.asked(alloc)?;
    let context = ContextOf(Listed(PairsOf { lender: types }));
    expect_shown::<ListsContext<PairsOf<&Types>>, TypesDelegate<&Types>>(
        alloc,
        context,
        asked.as_slice(),
    )?;
    Ok(pairs)
}

/// Asks about all pairs over one cache.
fn expect_shown<X, D>(alloc: Global, cx: X, asked: &[Asked]) -> Result<(), Fail>
where
    X: Cx<Input = Pair, Result = Outcome>,
    D: Delegate<Cx = X, ProofTreeBuilder = Builder>,
{
    let mut cache = GlobalCache::<D>::new(alloc, cx);
    for (left, right, is_below) in asked {
        let pair = Pair {
            left: *left,
            right: *right,
        };
        let wanted = if *is_below { Verdict::Yes } else { Verdict::No };
        if shown_verdict::<X, D>(alloc, &mut cache, pair)? != wanted {
            return Err("the search answers otherwise")?;
        }
    }
    Ok(())
}

/// What the pair is answered, if the checker accepts the graph that is handed out for it.
fn shown_verdict<X, D>(
    alloc: Global,
    cache: &mut GlobalCache<D>,
    pair: Pair,
) -> Result<Verdict, Fail>
where
    X: Cx<Input = Pair, Result = Outcome>,
    D: Delegate<Cx = X, ProofTreeBuilder = Builder>,
{
    let mut graph = SearchGraph::<D>::new(alloc, 1000);
    let mut builder = Builder::new(true);
    let answer = graph.evaluate_goal(cache, pair, PathKind::Coinductive, &mut builder)?;
    let verdict = answer.result.verdict();
    let root = answer.node.ok_or("no node of a definite answer")?;
    if !has_accepted_graph::<X, D>(alloc, cache, pair, verdict, root, &mut builder)? {
        return Err("no graph that the checker accepts")?;
    }
    Ok(verdict)
}

/// The first of these pairs that is answered otherwise, where all are asked in turn.
pub fn answered_otherwise<T: Lends<Types>>(
    alloc: Global,
    types: T,
    asked: &[Asked],
) -> Result<Option<Asked>, Fail> {
    let mut subtyping = Subtyping::<T>::new(alloc, types);
    for (left, right, is_below) in asked {
        if subtyping.is_below(*left, *right)? != *is_below {
            return Ok(Some((*left, *right, *is_below)));
        }
    }
    Ok(None)
}
