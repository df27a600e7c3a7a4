//! A goal whose stored result is validated, and which comes to a request out of order meanwhile.

use crate::searches::asking::ask;
use crate::searches::validation::acts::{count, put};
use delegate_parts::{Builder, ContextOf, Outcome};
use search_parts::context::{Cx, Delegate, Fault};
use search_parts::global_cache::GlobalCache;
use search_parts::path::PathKind;
use std::alloc::Global;
use std::test::Fail;
use test_delegates::journal::Event;
use test_delegates::scripts::{Goal, Line, Scripts, ScriptsDelegate};
use test_delegates::validating::{Validating, Watched};
use test_delegates::watch::{Watch, Watches};

// The first goal asks itself, so that a result may be stored of it, and then one whose first request is out of order. One
// scope is held for the goal, and another one is entered where it asks itself.
#[test]
fn a_request_out_of_order_drops_every_scope(rt: HostRuntime) -> Result<(), Fail> {
    let watch = &Watch::new(rt.alloc(), vec![in rt.alloc(); Goal(0)]?);
    let fault = fault_of_scripts(rt.alloc(), watch)?;
    assert_eq!(rt; fault, Some(Fault::Protocol(2)));
    for event in [Event::ScopeIsEntered, Event::ScopeIsDropped] {
        assert_eq!(rt;
            count(&watch.journal, event)?,
            2,
            "scopes entered and dropped"
        );
    }
    Ok(())
}

/// The fault that the first goal meets.
fn fault_of_scripts(
    alloc: Global,
    watch: &Watch<Goal, Outcome>,
) -> Result<Option<Fault<Goal, Outcome>>, Fail> {
    let asks_itself = Line::Evaluate(PathKind::Coinductive, Goal(0));
    let asks_another = Line::Evaluate(PathKind::Inductive, Goal(1));
    let mut lines = [[Line::End; 5]; 3];
    lines[0] = [asks_itself, asks_another, Line::End, Line::End, Line::End];
    lines[1] = [Line::FinishCandidate; 5];
    let cx = ContextOf(Scripts { lines });
    fault_of::<&Watch<Goal, Outcome>, ContextOf<Scripts>, ScriptsDelegate<8>>(
        alloc,
        watch,
        cx,
        Goal(0),
        watch,
    )
}

/// The fault that the goal meets where a maybe is stored of it. The journal is of that alone.
fn fault_of<W, X, D>(
    alloc: Global,
    watch: W,
    cx: X,
    goal: X::Input,
    seen: &Watch<X::Input, Outcome>,
) -> Result<Option<Fault<X::Input, Outcome>>, Fail>
where
    X: Cx<Result = Outcome>,
    W: Watches<X::Input, Outcome>,
    D: Delegate<Cx = X, ProofTreeBuilder = Builder>,
{
    let mut cache = GlobalCache::<Validating<W, D>>::new(alloc, Watched { cx, watch });
    fault_over::<Watched<W, X>, Validating<W, D>>(alloc, &mut cache, goal, seen)
}

fn fault_over<X, D>(
    alloc: Global,
    cache: &mut GlobalCache<D>,
    goal: X::Input,
    seen: &Watch<X::Input, Outcome>,
) -> Result<Option<Fault<X::Input, Outcome>>, Fail>
where
    X: Cx<Result = Outcome>,
    D: Delegate<Cx = X, ProofTreeBuilder = Builder>,
{
    put::<X, D>(alloc, cache, goal, Outcome::Maybe, None)?;
    seen.journal.clear();
    let mut builder = Builder::new(true);
    let (answer, _) = ask::<X, D>(alloc, cache, 4, goal, &mut builder)?;
    Ok(answer.err())
}
