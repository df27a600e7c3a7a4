//! Results of goals that ask themselves, which a cache stores.

use cycle_heads::heads::CycleHeads;
use delegate_parts::Outcome;
use global_cache::GlobalCache;
use path_kinds::path::{PathKind, PathsToNested};
use search_context::context::{Fault, NoMemory, NodeId};
use search_stack::nested_goals::NestedGoals;
use search_stack::result::EvaluationResult;
use test_delegates::loops::{LoopsDelegate, answered_loop};

/// A result that is stored: the outcome, the depth that it required, and a goal below it, if there is one, which is reached
/// over a path that is unknown.
#[derive(Clone, Copy)]
pub enum Found {
    /// One that met no overflow.
    Success(Outcome, usize, Option<PathKind>),
    /// One that did.
    Overflow(Outcome, usize, Option<PathKind>),
}

/// What was answered where a result was stored.
pub type Stored = Result<(), Fault<PathKind, Outcome>>;

/// Stores a result of a goal. A definite one gets a node of its own. A goal that asks itself has no rank, so that each
/// result of it may be stored.
pub fn store(
    cache: &mut GlobalCache<LoopsDelegate>,
    goal: PathKind,
    found: Found,
) -> Result<Stored, NoMemory> {
    let alloc = cache.allocator();
    let (outcome, required_depth, encountered_overflow, below) = match found {
        Found::Success(outcome, depth, below) => (outcome, depth, false, below),
        Found::Overflow(outcome, depth, below) => (outcome, depth, true, below),
    };
    let mut nested_goals = NestedGoals::new(alloc);
    if let Some(below) = below {
        nested_goals.insert(below, PathsToNested::UNKNOWN)?;
    }
    let (outcome, node) = definite_or_maybe(cache, goal, outcome)?;
    let evaluation_result = EvaluationResult {
        encountered_overflow,
        required_depth,
        heads: CycleHeads::new(alloc),
        nested_goals,
        result: outcome,
        node,
    };
    Ok(cache.insert(goal, evaluation_result, ()))
}

/// The outcome with a node that shows it, where it is a yes of a coinductive goal or a no of an inductive one. Another yes
/// or no cannot be shown, and is a maybe instead.
fn definite_or_maybe(
    cache: &mut GlobalCache<LoopsDelegate>,
    goal: PathKind,
    outcome: Outcome,
) -> Result<(Outcome, Option<NodeId>), NoMemory> {
    let alloc = cache.allocator();
    match (outcome, goal) {
        (Outcome::Yes, PathKind::Coinductive) | (Outcome::No, PathKind::Inductive) => {
            let node = answered_loop(cache, alloc, goal, outcome)?;
            Ok((outcome, Some(node)))
        }
        (Outcome::Overflow, _) => Ok((Outcome::Overflow, None)),
        _ => Ok((Outcome::Maybe, None)),
    }
}
