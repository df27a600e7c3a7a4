//! What is done with a cache over a table of rules, where stored results of some goals are validated, and what comes of it.

use crate::searches::asking::ask;
use crate::searches::stored::tell_stored;
use crate::searches::validation::put::put_neither;
use delegate_parts::{Builder, Outcome};
use rule_tables::delegate::Table;
use rule_tables::{Goal, Rules, TableDelegate};
use search_graph::graph::SearchGraph;
use search_parts::context::{Answer, Cx, Delegate, Fault};
use search_parts::global_cache::GlobalCache;
use search_parts::parts::{CycleHeads, EvaluationResult, NestedGoals};
use std::alloc::Global;
use std::io::Write;
use std::test::Fail;
use test_delegates::journal::{Event, Journal};
use test_delegates::validating::{Validating, Watched};
use test_delegates::watch::{Watch, Watches};

/// What is done with a cache.
#[derive(Clone, Copy)]
pub enum Act {
    /// This result of the goal, which is neither yes nor no, is stored as its success.
    Success(&'static str, Outcome),
    /// The same as one that met overflow and required this depth.
    Overflow(&'static str, Outcome, usize),
    /// From now on the goal's frames are refused memory.
    Refuse(&'static str),
    /// The goal is asked at this depth.
    Ask(Way, usize, &'static str),
}

/// How a goal is asked.
#[derive(Clone, Copy)]
pub enum Way {
    /// With a builder that is a no-op.
    Question,
    /// With a builder that records.
    Recorded,
    /// For a proof tree, with a builder that is a no-op.
    Tree,
    /// For a proof tree, with a builder that records.
    RecordedTree,
}

/// What the last of these acts comes to over the rules, where stored results of some goals are validated: the result, how
/// many frames were started, what happened to the goals meanwhile, and what is stored of A, B and C then. Of A
///
/// - `[A` says that a scope is entered, and `A]` that it is dropped,
/// - `(A` says that a frame starts, and `A)` that it is dropped,
/// - `A=yes` says that the frame is answered yes, and goes on.
///
/// After a fault it is only told how many scopes were entered and dropped, whatever the order.
pub fn tell(alloc: Global, rules: &str, validated: &[&str], acts: &[Act]) -> Result<Vec<u8>, Fail> {
    let rules = &Rules::read(alloc, rules.as_bytes())?;
    let watch = &Watch::new(alloc, goals_of(alloc, rules, validated)?);
    let mut told = Vec::new(alloc);
    tell_at_table(alloc, Search { rules, watch }, acts, &mut told)?;
    Ok(told)
}

fn goals_of(alloc: Global, rules: &Rules, names: &[&str]) -> Result<Vec<Goal>, Fail> {
    let mut goals = Vec::new(alloc);
    for name in names {
        goals.push(goal_of(rules, name)?)?;
    }
    Ok(goals)
}

fn tell_at_table(
    alloc: Global,
    search: Search<'_>,
    acts: &[Act],
    told: &mut Vec<u8>,
) -> Result<(), Fail> {
    let cx = Table {
        lender: search.rules,
    };
    tell_with::<&Watch<Goal, Outcome>, Table<&Rules>, TableDelegate<'_, 8, 1>>(
        alloc,
        search.watch,
        cx,
        search,
        acts,
        told,
    )
}

/// What a search goes over, and what is seen of it.
#[derive(Clone, Copy)]
struct Search<'a> {
    rules: &'a Rules,
    watch: &'a Watch<Goal, Outcome>,
}

fn goal_of(rules: &Rules, name: &str) -> Result<Goal, Fail> {
    Ok(rules.goal(name.as_bytes()).ok_or("no goal")?)
}

fn tell_with<W, X, D>(
    alloc: Global,
    watch: W,
    cx: X,
    search: Search<'_>,
    acts: &[Act],
    told: &mut Vec<u8>,
) -> Result<(), Fail>
where
    W: Watches<Goal, Outcome>,
    X: Cx<Input = Goal, Result = Outcome>,
    D: Delegate<Cx = X, ProofTreeBuilder = Builder>,
{
    let mut cache = GlobalCache::<Validating<W, D>>::new(alloc, Watched { cx, watch });
    tell_over::<Watched<W, X>, Validating<W, D>>(alloc, &mut cache, search, acts, told)
}

fn tell_over<X, D>(
    alloc: Global,
    cache: &mut GlobalCache<D>,
    search: Search<'_>,
    acts: &[Act],
    told: &mut Vec<u8>,
) -> Result<(), Fail>
where
    X: Cx<Input = Goal, Result = Outcome>,
    D: Delegate<Cx = X, ProofTreeBuilder = Builder>,
{
    for act in acts {
        search.watch.journal.clear();
        told.clear();
        carry_out::<X, D>(alloc, cache, search, *act, told)?;
    }
    tell_stored::<X, D>(cache, search.rules, told)
}

/// Does this with the cache. Where a goal is asked, what comes of it is told.
fn carry_out<X, D>(
    alloc: Global,
    cache: &mut GlobalCache<D>,
    search: Search<'_>,
    act: Act,
    told: &mut Vec<u8>,
) -> Result<(), Fail>
where
    X: Cx<Input = Goal, Result = Outcome>,
    D: Delegate<Cx = X, ProofTreeBuilder = Builder>,
{
    match act {
        Act::Success(name, outcome) => {
            let goal = goal_of(search.rules, name)?;
            put::<X, D>(alloc, cache, goal, outcome, None)
        }
        Act::Overflow(name, outcome, depth) => {
            let goal = goal_of(search.rules, name)?;
            put::<X, D>(alloc, cache, goal, outcome, Some(depth))
        }
        Act::Refuse(name) => {
            search.watch.refused.set(Some(goal_of(search.rules, name)?));
            Ok(())
        }
        Act::Ask(way, depth, name) => {
            let goal = goal_of(search.rules, name)?;
            let (answer, started) = answer_to::<X, D>(alloc, cache, way, depth, goal)?;
            tell_answered(search, answer, started, told)
        }
    }
}

/// What the goal comes to if it is asked this way, and how many frames that starts.
fn answer_to<X, D>(
    alloc: Global,
    cache: &mut GlobalCache<D>,
    way: Way,
    depth: usize,
    goal: Goal,
) -> Result<(Result<Answer<Outcome>, Fault<Goal, Outcome>>, u64), Fail>
where
    X: Cx<Input = Goal, Result = Outcome>,
    D: Delegate<Cx = X, ProofTreeBuilder = Builder>,
{
    let mut builder = Builder::new(matches!(way, Way::Question | Way::Tree));
    let answer = match way {
        Way::Question | Way::Recorded => {
            let (answer, _) = ask::<X, D>(alloc, cache, depth, goal, &mut builder)?;
            answer
        }
        Way::Tree | Way::RecordedTree => {
            SearchGraph::<D>::evaluate_root_goal_for_proof_tree(cache, depth, goal, &mut builder)
        }
    };
    Ok((answer, builder.started()))
}

/// Stores this outcome of the goal, as one that met overflow if there is a depth.
pub fn put<X, D>(
    alloc: Global,
    cache: &mut GlobalCache<D>,
    goal: X::Input,
    outcome: Outcome,
    overflow: Option<usize>,
) -> Result<(), Fail>
where
    X: Cx<Result = Outcome>,
    D: Delegate<Cx = X, ProofTreeBuilder = Builder>,
{
    let evaluation_result = EvaluationResult {
        encountered_overflow: overflow.is_some(),
        required_depth: overflow.unwrap_or(0),
        heads: CycleHeads::new(alloc),
        nested_goals: NestedGoals::new(alloc),
        result: outcome,
        node: None,
    };
    let mut builder = Builder::new(true);
    put_neither::<D>(cache, goal, evaluation_result, &mut builder)
}

/// What a goal came to, how many frames that started, and what happened meanwhile.
fn tell_answered(
    search: Search<'_>,
    answer: Result<Answer<Outcome>, Fault<Goal, Outcome>>,
    started: u64,
    told: &mut Vec<u8>,
) -> Result<(), Fail> {
    tell_answer(search, answer, told)?;
    write!(told, " after {started}")?;
    if answer.is_err() {
        return tell_scopes(search, told);
    }
    tell_journal(search, told)
}

fn tell_answer(
    search: Search<'_>,
    answer: Result<Answer<Outcome>, Fault<Goal, Outcome>>,
    told: &mut Vec<u8>,
) -> Result<(), Fail> {
    match answer {
        Ok(answer) => {
            let outcome = answer.result;
            write!(told, "{outcome}")?;
        }
        Err(
            Fault::Validation {
                input,
                stored,
                found,
            },
        ) => {
            tell_name(search, input, told)?;
            write!(told, " is {found} and not {stored}")?;
        }
        Err(fault) => write!(told, "{fault}")?,
    }
    Ok(())
}

fn tell_name(search: Search<'_>, goal: Goal, told: &mut Vec<u8>) -> Result<(), Fail> {
    told.write_all(search.rules.name(goal).ok_or("no name")?)?;
    Ok(())
}

/// What happened to the goals.
fn tell_journal(search: Search<'_>, told: &mut Vec<u8>) -> Result<(), Fail> {
    let journal = &search.watch.journal;
    for place in 0..journal.count() {
        let (goal, event) = journal.get(place).ok_or("no line")?;
        tell_line(search, goal, event, told)?;
    }
    Ok(())
}

fn tell_line(
    search: Search<'_>,
    goal: Goal,
    event: Event<Outcome>,
    told: &mut Vec<u8>,
) -> Result<(), Fail> {
    let (before, after) = match event {
        Event::ScopeIsEntered => (" [", ""),
        Event::FrameStarts => (" (", ""),
        Event::IsAnswered(_) => (" ", "="),
        Event::FrameIsDropped => (" ", ")"),
        Event::ScopeIsDropped => (" ", "]"),
    };
    told.write_all(before.as_bytes())?;
    tell_name(search, goal, told)?;
    told.write_all(after.as_bytes())?;
    if let Event::IsAnswered(outcome) = event {
        write!(told, "{outcome}")?;
    }
    Ok(())
}

/// How many scopes were entered, and how many were dropped.
fn tell_scopes(search: Search<'_>, told: &mut Vec<u8>) -> Result<(), Fail> {
    let entered = count(&search.watch.journal, Event::ScopeIsEntered)?;
    let dropped = count(&search.watch.journal, Event::ScopeIsDropped)?;
    write!(told, " with {entered} scopes, {dropped} dropped")?;
    Ok(())
}

/// How often this happened.
pub fn count<I: Copy>(journal: &Journal<I, Outcome>, event: Event<Outcome>) -> Result<usize, Fail> {
    let mut count = 0usize;
    for place in 0..journal.count() {
        let (_, happened) = journal.get(place).ok_or("no line")?;
        if happened == event {
            count = count.saturating_add(1);
        }
    }
    Ok(count)
}
