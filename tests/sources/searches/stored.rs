//! What is stored of the goals of a table.

use rule_tables::{Goal, Outcome, Rules};
use search_parts::context::{Cx, Delegate};
use search_parts::global_cache::GlobalCache;
use std::io::Write;
use std::test::Fail;

/// Tells what is stored of A, B and C: successes with the depths that they require, and the results that met overflow.
pub fn tell_stored<X, D>(
    cache: &GlobalCache<D>,
    rules: &Rules,
    told: &mut Vec<u8>,
) -> Result<(), Fail>
where
    X: Cx<Input = Goal, Result = Outcome>,
    D: Delegate<Cx = X>,
{
    told.write_all(b", stored:")?;
    for name in ["A", "B", "C"] {
        if let Some(goal) = rules.goal(name.as_bytes()) {
            tell_stored_of::<X, D>(cache, goal, name, told)?;
        }
    }
    Ok(())
}

fn tell_stored_of<X, D>(
    cache: &GlobalCache<D>,
    goal: Goal,
    name: &str,
    told: &mut Vec<u8>,
) -> Result<(), Fail>
where
    X: Cx<Input = Goal, Result = Outcome>,
    D: Delegate<Cx = X>,
{
    if let Some((outcome, required_depth)) = cache.success_of(goal) {
        write!(told, " {name} {outcome} {required_depth}")?;
    }
    for depth in 0..=4usize {
        if let Some(outcome) = cache.overflow_at(goal, depth) {
            write!(told, " {name} {outcome} at {depth}")?;
        }
    }
    Ok(())
}
