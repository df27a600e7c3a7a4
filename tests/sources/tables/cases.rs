//! Runs over tables of rules, in the format of `vectors/README.md` with its options and sections.

use crate::tables::asked::Answered;
use crate::tables::drawing::{start_line, write_graph};
use crate::tables::idle::write_idle;
use crate::tables::lists::{answers_to, lists_have};
use crate::tables::trees::{write_record, write_tree};
use delegate_parts::{Builder, Outcome};
use rule_tables::delegate::Table;
use rule_tables::{Goal, Rules, TableDelegate};
use search_parts::context::{Cx, Delegate};
use search_parts::global_cache::GlobalCache;
use std::alloc::Global;
use std::io::Write;
use std::test::Fail;

/// The most depth at which results that met overflow are looked for.
const MOST_DEPTH: usize = 8;

/// The names of goals whose stored results are told.
const NAMES: [&str; 26] = [
    "A", "B", "C", "D", "E", "F", "G", "H", "I", "J", "K", "L", "M", "N", "O", "P", "Q", "R", "S",
    "T", "U", "V", "W", "X", "Y", "Z",
];

/// A table, the ways in which its questions are asked, none of them for plain questions, and what is wanted of it.
#[derive(Clone, Copy)]
pub struct Case<'a> {
    pub rules: &'a Rules,
    pub ways: &'a str,
    pub wanted: &'a str,
}

/// What the table's questions come to, with the sections that are wanted.
pub fn tell(alloc: Global, options: &str, table: &[u8], wanted: &str) -> Result<Vec<u8>, Fail> {
    let (options, ways) = options.split_once(" asked ").unwrap_or((options, ""));
    let rules = Rules::read(alloc, table)?;
    let case = Case {
        rules: &rules,
        ways,
        wanted,
    };
    tell_case(alloc, options, case)
}

/// What the case comes to with these options.
fn tell_case(alloc: Global, options: &str, case: Case<'_>) -> Result<Vec<u8>, Fail> {
    match options {
        "limit 0" => tell_with::<0, 1>(alloc, case),
        "limit 1" => tell_with::<1, 1>(alloc, case),
        "limit 2" => tell_with::<2, 1>(alloc, case),
        "limit 3" => tell_with::<3, 1>(alloc, case),
        "limit 8" => tell_with::<8, 1>(alloc, case),
        "limit 0 provisional off" => tell_with::<0, 0>(alloc, case),
        "limit 1 provisional off" => tell_with::<1, 0>(alloc, case),
        "limit 2 provisional off" => tell_with::<2, 0>(alloc, case),
        "limit 3 provisional off" => tell_with::<3, 0>(alloc, case),
        "limit 8 provisional off" => tell_with::<8, 0>(alloc, case),
        "limit 8 provisional both" => tell_both(alloc, case),
        _ => Err("other options")?,
    }
}

/// The same of a chain of so many goals and one more, of which each but the last asks the next. The first is asked at this
/// depth.
pub fn tell_chain(
    alloc: Global,
    options: &str,
    chain: &str,
    wanted: &str,
) -> Result<Vec<u8>, Fail> {
    let (count, depth) = chain.split_once(' ').ok_or("no depth")?;
    let count = count.parse::<u32>()?;
    let mut table = Vec::new(alloc);
    for goal in 1..=count {
        let next = goal.saturating_sub(1);
        write!(table, "rule {goal} = i:{next}\n")?;
    }
    write!(table, "rule 0 =\nask {depth} {count}\n")?;
    tell(alloc, options, table.as_slice(), wanted)
}

/// The same with the provisional cache, and what is told without it where that is not the same.
fn tell_both(alloc: Global, case: Case<'_>) -> Result<Vec<u8>, Fail> {
    let mut told = tell_with::<8, 1>(alloc, case)?;
    let without = tell_with::<8, 0>(alloc, case)?;
    if told.as_slice() != without.as_slice() {
        write!(told, "\nwithout\n")?;
        told.extend_from_slice(without.as_slice())?;
    }
    Ok(told)
}

/// What a case comes to with so many runs, and without the provisional cache where `PROVISIONAL` is 0.
fn tell_with<const LIMIT: usize, const PROVISIONAL: usize>(
    alloc: Global,
    case: Case<'_>,
) -> Result<Vec<u8>, Fail> {
    let cx = Table { lender: case.rules };
    lines_of::<Table<&Rules>, TableDelegate<'_, LIMIT, PROVISIONAL>>(alloc, cx, case)
}

/// What the questions come to over one cache. Plain questions have to come to the same as lists, and a flaw is told instead.
pub fn lines_of<X, D>(alloc: Global, cx: X, case: Case<'_>) -> Result<Vec<u8>, Fail>
where
    X: Cx<Input = Goal, Result = Outcome>,
    D: Delegate<Cx = X, ProofTreeBuilder = Builder>,
{
    let mut cache = GlobalCache::<D>::new(alloc, cx);
    match answers_to::<X, D>(alloc, &mut cache, case.rules.questions(), case.ways)? {
        Ok(answers) => lines_with::<X, D>(alloc, &cache, case, answers.as_slice()),
        Err(flaw) => Ok(flaw.as_bytes().to_vec(alloc)?),
    }
}

/// The lines of these answers.
fn lines_with<X, D>(
    alloc: Global,
    cache: &GlobalCache<D>,
    case: Case<'_>,
    answers: &[Answered],
) -> Result<Vec<u8>, Fail>
where
    X: Cx<Input = Goal, Result = Outcome>,
    D: Delegate<Cx = X, ProofTreeBuilder = Builder>,
{
    let mut lines = Vec::new(alloc);
    write_answers(&mut lines, case.rules, answers)?;
    if case.ways.is_empty() {
        write_lists::<X, D>(
            alloc,
            &mut lines,
            cache.cx(),
            case.rules.questions(),
            answers,
        )?;
    }
    for line in case.wanted.lines() {
        write_section::<X, D>(alloc, &mut lines, cache, case, answers, line)?;
    }
    Ok(lines)
}

/// A question's goal, its result and the frames that it started, and whether a limit was met.
fn write_answers(lines: &mut Vec<u8>, rules: &Rules, answers: &[Answered]) -> Result<(), Fail> {
    for ((_, goal), answered) in rules.questions().iter().zip(answers.iter()) {
        start_line(lines)?;
        lines.extend_from_slice(rules.name(*goal).ok_or("no name")?)?;
        write_answer(lines, *answered)?;
    }
    Ok(())
}

fn write_answer(lines: &mut Vec<u8>, answered: Answered) -> Result<(), Fail> {
    let outcome = answered.answer.result;
    let started = answered.started;
    write!(lines, " {outcome} {started}")?;
    if answered.limits_met {
        write!(lines, " limit")?;
    }
    Ok(())
}

/// A line where the questions come to something else as lists.
fn write_lists<X, D>(
    alloc: Global,
    lines: &mut Vec<u8>,
    cx: X,
    questions: &[(usize, Goal)],
    answers: &[Answered],
) -> Result<(), Fail>
where
    X: Cx<Input = Goal, Result = Outcome>,
    D: Delegate<Cx = X, ProofTreeBuilder = Builder>,
{
    for first in [0, 1] {
        if !lists_have::<X, D>(alloc, cx, questions, first, answers)? {
            write!(lines, "\nanother answer in a list")?;
        }
    }
    Ok(())
}

/// The section that begins with this line, if one does. Those of a single question are of the last.
fn write_section<X, D>(
    alloc: Global,
    lines: &mut Vec<u8>,
    cache: &GlobalCache<D>,
    case: Case<'_>,
    answers: &[Answered],
    line: &str,
) -> Result<(), Fail>
where
    X: Cx<Input = Goal, Result = Outcome>,
    D: Delegate<Cx = X, ProofTreeBuilder = Builder>,
{
    let rules = case.rules;
    let (depth, goal) = *rules.questions().last().ok_or("no question")?;
    let answered = *answers.last().ok_or("no answer")?;
    match line {
        "nodes" => write_nodes(lines, answers),
        "stored" => write_stored::<X, D>(lines, cache, rules),
        "graph" => write_graph::<X, D>(lines, cache, rules, goal, answered.answer),
        "idle" => write_idle::<X, D>(alloc, lines, cache.cx(), depth, goal),
        "tree" => write_tree::<X, D>(alloc, lines, cache.cx(), rules, depth, goal),
        "recorded" => write_record::<X, D>(alloc, lines, cache.cx(), rules, depth, goal, true),
        "unrecorded" => write_record::<X, D>(alloc, lines, cache.cx(), rules, depth, goal, false),
        _ => Ok(()),
    }
}

/// The node that each answer names.
fn write_nodes(lines: &mut Vec<u8>, answers: &[Answered]) -> Result<(), Fail> {
    write!(lines, "\nnodes")?;
    for answered in answers {
        match answered.answer.node {
            Some(node) => {
                let place = node.0;
                write!(lines, "\n{place}")?;
            }
            None => write!(lines, "\nnone")?,
        }
    }
    Ok(())
}

/// A line for each stored result, the goals in the order of their names.
fn write_stored<X, D>(
    lines: &mut Vec<u8>,
    cache: &GlobalCache<D>,
    rules: &Rules,
) -> Result<(), Fail>
where
    X: Cx<Input = Goal, Result = Outcome>,
    D: Delegate<Cx = X, ProofTreeBuilder = Builder>,
{
    write!(lines, "\nstored")?;
    for name in NAMES {
        if let Some(goal) = rules.goal(name.as_bytes()) {
            write_stored_of::<X, D>(lines, cache, name, goal)?;
        }
    }
    Ok(())
}

/// A line for each stored result of the goal.
fn write_stored_of<X, D>(
    lines: &mut Vec<u8>,
    cache: &GlobalCache<D>,
    name: &str,
    goal: Goal,
) -> Result<(), Fail>
where
    X: Cx<Input = Goal, Result = Outcome>,
    D: Delegate<Cx = X, ProofTreeBuilder = Builder>,
{
    if let Some((outcome, required_depth)) = cache.success_of(goal) {
        write!(lines, "\n{name} {outcome} from {required_depth}")?;
    }
    for depth in 0..MOST_DEPTH {
        if let Some(outcome) = cache.overflow_at(goal, depth) {
            write!(lines, "\n{name} {outcome} at {depth}")?;
        }
    }
    Ok(())
}
