//! Tests of the depth that a question gets, and of the depth that a stored result needs.

use path_kinds::path::PathKind;
use search_context::context::{Cx, Delegate, NoMemory};
use search_stack::depth::AvailableDepth;
use search_stack::stack::{Stack, StackEntry};
use std::alloc::Global;
use std::test::Fail;
use test_delegates::loops::{LoopsContext, LoopsDelegate};

/// The depth of the goal that asks and whether it met overflow, if one asks; and the depth that its question gets where the
/// first goal of all gets 9, if it is not refused.
const QUESTIONS: [(&str, Option<(usize, bool)>, Option<usize>); 7] = [
    ("the first goal gets the root depth", None, Some(9)),
    ("a goal below gets less", Some((7, false)), Some(6)),
    ("and little after overflow", Some((7, true)), Some(1)),
    ("the last depth is 0", Some((1, false)), Some(0)),
    ("and so it is after overflow", Some((3, true)), Some(0)),
    ("no depth is left", Some((0, false)), None),
    ("none is left after overflow", Some((0, true)), None),
];

#[test]
fn questions_get_their_depths(rt: HostRuntime) -> Result<(), Fail> {
    for (name, asking, wanted) in QUESTIONS {
        let is_allowed = allows::<LoopsContext, LoopsDelegate>(rt.alloc(), asking, wanted)?;
        assert!(rt; is_allowed, "{name}");
    }
    Ok(())
}

/// Whether a question gets this depth, or is refused.
fn allows<X, D>(
    alloc: Global,
    asking: Option<(usize, bool)>,
    wanted: Option<usize>,
) -> Result<bool, NoMemory>
where
    X: Cx<Input = PathKind>,
    D: Delegate<Cx = X>,
{
    let mut stack = Stack::<X>::new(alloc);
    if let Some((depth, met_overflow)) = asking {
        let kind = PathKind::Unknown;
        let mut entry = StackEntry::new(alloc, kind, kind, AvailableDepth(depth));
        entry.state.encountered_overflow = met_overflow;
        stack.push(entry)?;
    }
    let root = AvailableDepth(9);
    let allowed = AvailableDepth::allowed_depth_for_nested::<D>(root, &stack);
    Ok(match (allowed, wanted) {
        (Some(allowed), Some(wanted)) => allowed.0 == wanted,
        (None, None) => true,
        _ => false,
    })
}

/// Depths that a result required, and whether it is used where 2 is available.
const RESULTS: [(usize, bool); 4] = [(0, true), (1, true), (2, true), (3, false)];

#[test]
fn a_result_is_used_at_its_depth_and_above(rt: HostRuntime) {
    for (required, wanted) in RESULTS {
        let is_used = AvailableDepth(2).cache_entry_is_applicable(required);
        assert_eq!(rt; is_used, wanted, "{required}");
    }
}
