//! Random tables for as long as one likes, with frames that are refused memory now and then.

use crate::bare_calls::{evaluate, has_accepted_graph, new_cache, new_graph};
use crate::chance::Chance;
use crate::failed::{Failed, ensure};
use delegate_parts::{Builder, Outcome};
use rule_tables::delegate::Table;
use rule_tables::{Goal, Rules, TableDelegate};
use search_parts::context::{Answer, Cx, Delegate, Fault, NoMemory};
use search_parts::global_cache::GlobalCache;
use search_parts::path::PathKind;
use std::alloc::Global;
use std::fmt::Write;
use test_delegates::refusing::{Refusals, Refusing};

/// How many questions are asked of one table, over one cache.
const QUESTIONS: usize = 2000;

/// The most depth of a question.
const DEPTHS: usize = 12;

/// What the questions came to.
#[derive(Clone, Copy, Debug, Default)]
pub struct Tally {
    pub questions: u64,
    /// The answers of yes or no whose graph was checked.
    pub checked: u64,
    /// What ended for want of memory.
    pub refused: u64,
    pub frames: u64,
}

/// Asks the questions of one random table, which has to keep all that is promised, or ends early for want of memory.
pub fn soak_table(alloc: Global, chance: &mut Chance, tally: &mut Tally) -> Result<(), Failed> {
    match ask_table(alloc, chance, tally) {
        Err(Failed::Memory) => {
            tally.refused = tally.refused.saturating_add(1);
            Ok(())
        }
        asked => asked,
    }
}

fn ask_table(alloc: Global, chance: &mut Chance, tally: &mut Tally) -> Result<(), Failed> {
    let goals = chance.below(20).saturating_add(2);
    let text = random_table(alloc, chance, goals)?;
    let rules = Rules::read(alloc, text.as_bytes())?;
    let cx = Table { lender: &rules };
    ask_at_random::<Table<&Rules>, Refusing<TableDelegate<'_, 8, 1>>>(
        alloc, cx, &rules, chance, tally,
    )
}

/// A table of as many goals, with up to two rules each.
fn random_table(alloc: Global, chance: &mut Chance, goals: usize) -> Result<String, Failed> {
    let mut text = String::new(alloc);
    for number in 0..goals {
        for _ in 0..chance.below(3) {
            let mark = if chance.once_in(6) { "~" } else { "" };
            write!(text, "rule {mark}g{number} =").map_err(|_| Failed::Memory)?;
            for _ in 0..chance.below(4) {
                let kind = match chance.below(12) {
                    0 => "u",
                    1 => "f",
                    2 | 3 | 4 | 5 | 6 => "c",
                    _ => "i",
                };
                let other = chance.below(goals);
                write!(text, " {kind}:g{other}").map_err(|_| Failed::Memory)?;
            }
            text.push_str("\n")?;
        }
        write!(text, "ask 0 g{number}\n").map_err(|_| Failed::Memory)?;
    }
    Ok(text)
}

/// Asks random goals of the table over one cache. No goal may be a yes and a no, and a question that is refused memory
/// leaves nothing under evaluation.
fn ask_at_random<X, D>(
    alloc: Global,
    cx: X,
    rules: &Rules,
    chance: &mut Chance,
    tally: &mut Tally,
) -> Result<(), Failed>
where
    X: Cx<Input = Goal, Result = Outcome>,
    D: Delegate<Cx = X, ProofTreeBuilder = Refusals<Builder>>,
{
    let mut cache = new_cache::<X, D>(alloc, cx);
    let mut known = known_of(alloc, rules)?;
    for _ in 0..QUESTIONS {
        if !ask_one::<X, D>(alloc, &mut cache, known.as_mut_slice(), chance, tally)? {
            break;
        }
    }
    Ok(())
}

/// The goals of the table's questions, of which nothing is known.
fn known_of(alloc: Global, rules: &Rules) -> Result<Vec<(Goal, Outcome)>, Failed> {
    let mut known = Vec::new(alloc);
    for (_, goal) in rules.questions() {
        known.push((*goal, Outcome::Maybe))?;
    }
    Ok(known)
}

/// Asks one of these goals, which may be no yes and no. Answers whether there is one.
fn ask_one<X, D>(
    alloc: Global,
    cache: &mut GlobalCache<D>,
    known: &mut [(Goal, Outcome)],
    chance: &mut Chance,
    tally: &mut Tally,
) -> Result<bool, Failed>
where
    X: Cx<Input = Goal, Result = Outcome>,
    D: Delegate<Cx = X, ProofTreeBuilder = Refusals<Builder>>,
{
    let depth = chance.below(DEPTHS);
    let place = chance.below(known.len());
    let call = if chance.once_in(4) {
        chance.below(50)
    } else {
        0
    };
    let Some(slot) = known.get_mut(place) else {
        return Ok(false);
    };
    let (goal, before) = *slot;
    let outcome = ask::<X, D>(alloc, cache, depth, goal, call, tally)?;
    if is_definite(outcome) {
        let is_other = is_definite(before) && before != outcome;
        ensure(!is_other, "a goal is a yes and a no")?;
        *slot = (goal, outcome);
    }
    Ok(true)
}

/// What the goal comes to; maybe where a call of its frames is refused memory.
fn ask<X, D>(
    alloc: Global,
    cache: &mut GlobalCache<D>,
    depth: usize,
    goal: Goal,
    call: usize,
    tally: &mut Tally,
) -> Result<Outcome, Failed>
where
    X: Cx<Input = Goal, Result = Outcome>,
    D: Delegate<Cx = X, ProofTreeBuilder = Refusals<Builder>>,
{
    let mut graph = new_graph::<X, D>(alloc, depth);
    let mut refusals = Refusals {
        builder: Builder::new(true),
        call: call as u64,
    };
    let answer = evaluate::<X, D>(&mut graph, cache, goal, PathKind::Inductive, &mut refusals);
    tally.questions = tally.questions.saturating_add(1);
    tally.frames = tally.frames.saturating_add(refusals.builder.started());
    match answer {
        Ok(answer) => {
            refusals.call = 0;
            check_answer::<X, D>(alloc, cache, goal, answer, &mut refusals, tally)?;
            Ok(answer.result)
        }
        Err(fault) => {
            tally.refused = tally.refused.saturating_add(1);
            ensure(fault == Fault::Memory, "a fault of another cause")?;
            ensure(graph.is_empty(), "goals under evaluation after a fault")?;
            Ok(Outcome::Maybe)
        }
    }
}

/// Asks that a definite answer has a graph that shows it, unless that is refused memory.
fn check_answer<X, D>(
    alloc: Global,
    cache: &GlobalCache<D>,
    goal: Goal,
    answer: Answer<Outcome>,
    inspect: &mut D::ProofTreeBuilder,
    tally: &mut Tally,
) -> Result<(), Failed>
where
    X: Cx<Input = Goal, Result = Outcome>,
    D: Delegate<Cx = X>,
{
    let has_node = answer.node.is_some();
    ensure(has_node == is_definite(answer.result), "a node is missing")?;
    let Some(node) = answer.node else {
        return Ok(());
    };
    match has_accepted_graph::<X, D>(alloc, cache, goal, answer.result.verdict(), node, inspect) {
        Ok(is_shown) => {
            tally.checked = tally.checked.saturating_add(1);
            ensure(is_shown, "no graph that the checker accepts")
        }
        Err(NoMemory) => {
            tally.refused = tally.refused.saturating_add(1);
            Ok(())
        }
    }
}

/// Whether the outcome is yes or no.
fn is_definite(outcome: Outcome) -> bool {
    matches!(outcome, Outcome::Yes | Outcome::No)
}
