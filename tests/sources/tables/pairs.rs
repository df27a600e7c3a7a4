//! Tables of two goals that ask two questions each: what is answered, and the graphs of the answers.
//!
//! A run names what the two goals make of their questions, and a step: it takes each table whose number is a multiple of that.
//! It says how many of the questions at depth 4 come to yes, no and neither, with the provisional cache and without it, and
//! how many of the tables without unknown steps are decided, each counted once with that cache and once without it. Nothing is
//! wrong with any answer, and no goal is both yes and no.
//!
//! The checks at run time make a table slow, so the step is 41 in the rows. With 1 a row takes all 4,096 tables, in about three
//! minutes, and they come to:
//!
//! | Bodies | All tables come to |
//! |---|---|
//! | `alternatives alternatives` | 17992 yes 776 no 14000 neither 512 decided |
//! | `alternatives together`, `together alternatives` | 7736 yes 6008 no 19024 neither 512 decided |
//! | `together together` | 1352 yes 13832 no 17584 neither 512 decided |

use crate::tables::asked::{Answered, Way, ask, is_definite};
use crate::tables::lists::{answers_to, lists_have};
use crate::tables::plain_graph::ShownGraph;
use delegate_parts::{Builder, Outcome};
use rule_tables::delegate::Table;
use rule_tables::{Goal, Rules, TableDelegate};
use search_parts::context::{Answer, Cx, Delegate};
use search_parts::global_cache::GlobalCache;
use std::alloc::Global;
use std::io::Write;
use std::test::Fail;

/// All questions of the two goals.
const QUESTIONS: [&str; 8] = ["i:A", "i:B", "c:A", "c:B", "u:A", "u:B", "f:A", "f:B"];

/// How many pairs of questions there are.
const PAIRS: usize = 64;

/// What a goal makes of its two questions.
#[derive(Clone, Copy)]
enum Body {
    /// Two candidates of a question each.
    Alternatives,
    /// One candidate of both.
    Together,
}

/// What is asked of each table over one cache: how deep, and which goal.
const ASKED: [(usize, &[u8]); 5] = [(0, b"A"), (4, b"A"), (4, b"B"), (1, b"B"), (1, b"A")];

/// What is asked of it over another cache.
const ASKED_ANEW: [(usize, &[u8]); 2] = [(4, b"B"), (4, b"A")];

/// How many questions came to each result, and how many tables were decided.
#[derive(Clone, Copy, Default)]
struct Counts {
    yes: u32,
    no: u32,
    neither: u32,
    decided: u32,
}

impl Counts {
    fn note(&mut self, outcome: Outcome) {
        let count = match outcome {
            Outcome::Yes => &mut self.yes,
            Outcome::No => &mut self.no,
            Outcome::Maybe | Outcome::Overflow => &mut self.neither,
        };
        *count = count.saturating_add(1);
    }

    fn write(self, told: &mut Vec<u8>) -> Result<(), Fail> {
        let Counts {
            yes,
            no,
            neither,
            decided,
        } = self;
        write!(
            told,
            "{yes} yes {no} no {neither} neither {decided} decided"
        )?;
        Ok(())
    }
}

/// What the questions of one table came to, over all its caches.
#[derive(Drop)]
struct Said {
    definite: Vec<(Goal, Outcome)>,
}

impl Said {
    /// Whether the result is definite, and the goal came to the other definite one before.
    fn contradicts(&mut self, goal: Goal, outcome: Outcome) -> Result<bool, Fail> {
        if !is_definite(outcome) {
            return Ok(false);
        }
        for (other, said) in &self.definite {
            if *other == goal && *said != outcome {
                return Ok(true);
            }
        }
        self.definite.push((goal, outcome))?;
        Ok(false)
    }
}

/// What the tables of these bodies come to, of which each is taken whose number is a multiple of the step.
pub fn tell(alloc: Global, options: &str) -> Result<Vec<u8>, Fail> {
    let mut words = options.split(' ');
    let first = body_of(words.next().ok_or("no first body")?)?;
    let second = body_of(words.next().ok_or("no second body")?)?;
    let step = words.next().ok_or("no step")?.parse::<usize>()?;
    let mut told = Vec::new(alloc);
    let mut counts = Counts::default();
    for table in (0..PAIRS * PAIRS).step_by(step) {
        if let Some(flaw) = flaw_of(alloc, first, second, table, &mut counts)? {
            write!(told, "table {table}: {flaw}\n")?;
        }
    }
    counts.write(&mut told)?;
    Ok(told)
}

fn body_of(word: &str) -> Result<Body, Fail> {
    Ok(match word {
        "alternatives" => Body::Alternatives,
        "together" => Body::Together,
        _ => Err("no body")?,
    })
}

/// What is wrong with the answers to the table of this number.
fn flaw_of(
    alloc: Global,
    first: Body,
    second: Body,
    table: usize,
    counts: &mut Counts,
) -> Result<Option<&'static str>, Fail> {
    let text = text_of(alloc, first, second, table)?;
    let rules = Rules::read(alloc, text.as_slice())?;
    if !has_unknown_step(table / PAIRS) && !has_unknown_step(table % PAIRS) {
        note_decided::<1>(alloc, &rules, counts)?;
        note_decided::<0>(alloc, &rules, counts)?;
    }
    flaw_of_rules(alloc, &rules, counts)
}

/// The same with the provisional cache, and without it.
fn flaw_of_rules(
    alloc: Global,
    rules: &Rules,
    counts: &mut Counts,
) -> Result<Option<&'static str>, Fail> {
    let mut said = Said {
        definite: Vec::new(alloc),
    };
    let flaw = flaw_with::<1>(alloc, rules, &mut said, counts)?;
    if flaw.is_some() {
        return Ok(flaw);
    }
    flaw_with::<0>(alloc, rules, &mut said, counts)
}

/// The two questions of a pair.
fn questions_of(pair: usize) -> (usize, usize) {
    (pair / QUESTIONS.len(), pair % QUESTIONS.len())
}

/// Whether one of the pair's questions is neither inductive nor coinductive.
fn has_unknown_step(pair: usize) -> bool {
    let (first, second) = questions_of(pair);
    first >= 4 || second >= 4
}

/// The table of this number: the rules of A with its first pair of questions, and those of B with its second one.
fn text_of(alloc: Global, first: Body, second: Body, table: usize) -> Result<Vec<u8>, Fail> {
    let mut text = Vec::new(alloc);
    write_body(&mut text, "A", first, table / PAIRS)?;
    write_body(&mut text, "B", second, table % PAIRS)?;
    Ok(text)
}

/// The rules of the goal of this name with a pair of questions.
fn write_body(text: &mut Vec<u8>, name: &str, body: Body, pair: usize) -> Result<(), Fail> {
    let (first, second) = questions_of(pair);
    let first = QUESTIONS.get(first).ok_or("no question")?;
    let second = QUESTIONS.get(second).ok_or("no question")?;
    match body {
        Body::Alternatives => write!(text, "rule {name} = {first}\nrule {name} = {second}\n")?,
        Body::Together => write!(text, "rule {name} = {first} {second}\n")?,
    }
    Ok(())
}

/// What is wrong with the answers of a search over these rules, without the provisional cache where `PROVISIONAL` is 0.
fn flaw_with<const PROVISIONAL: usize>(
    alloc: Global,
    rules: &Rules,
    said: &mut Said,
    counts: &mut Counts,
) -> Result<Option<&'static str>, Fail> {
    let cx = Table { lender: rules };
    flaw_of_table::<Table<&Rules>, TableDelegate<'_, 8, PROVISIONAL>>(
        alloc, cx, rules, said, counts,
    )
}

/// The same of the questions over two caches. The results at depth 4 are counted.
fn flaw_of_table<X, D>(
    alloc: Global,
    cx: X,
    rules: &Rules,
    said: &mut Said,
    counts: &mut Counts,
) -> Result<Option<&'static str>, Fail>
where
    X: Cx<Input = Goal, Result = Outcome>,
    D: Delegate<Cx = X, ProofTreeBuilder = Builder>,
{
    let flaw = flaw_of_questions::<X, D>(alloc, cx, rules, &ASKED, said, counts)?;
    if flaw.is_some() {
        return Ok(flaw);
    }
    flaw_of_questions::<X, D>(alloc, cx, rules, &ASKED_ANEW, said, counts)
}

/// The same of these questions over one cache, and as a list over another.
fn flaw_of_questions<X, D>(
    alloc: Global,
    cx: X,
    rules: &Rules,
    asked: &[(usize, &[u8])],
    said: &mut Said,
    counts: &mut Counts,
) -> Result<Option<&'static str>, Fail>
where
    X: Cx<Input = Goal, Result = Outcome>,
    D: Delegate<Cx = X, ProofTreeBuilder = Builder>,
{
    let mut cache = GlobalCache::<D>::new(alloc, cx);
    let questions = goals_of(alloc, rules, asked)?;
    let questions = questions.as_slice();
    match answers_to::<X, D>(alloc, &mut cache, questions, "")? {
        Ok(answers) => {
            let answers = answers.as_slice();
            note_answers(questions, answers, counts);
            if !lists_have::<X, D>(alloc, cx, questions, 0, answers)? {
                return Ok(Some("another answer in a list"));
            }
            flaw_of_answers::<X, D>(alloc, &cache, rules, questions, answers, said)
        }
        Err(flaw) => Ok(Some(flaw)),
    }
}

fn goals_of(
    alloc: Global,
    rules: &Rules,
    asked: &[(usize, &[u8])],
) -> Result<Vec<(usize, Goal)>, Fail> {
    let mut questions = Vec::new(alloc);
    for (depth, name) in asked {
        questions.push((*depth, rules.goal(name).ok_or("no goal")?))?;
    }
    Ok(questions)
}

/// Counts the answers at depth 4.
fn note_answers(questions: &[(usize, Goal)], answers: &[Answered], counts: &mut Counts) {
    for ((depth, _), answered) in questions.iter().zip(answers.iter()) {
        if *depth == 4 {
            counts.note(answered.answer.result);
        }
    }
}

/// What is wrong with the answers: a goal that was answered otherwise before, or a graph.
fn flaw_of_answers<X, D>(
    alloc: Global,
    cache: &GlobalCache<D>,
    rules: &Rules,
    questions: &[(usize, Goal)],
    answers: &[Answered],
    said: &mut Said,
) -> Result<Option<&'static str>, Fail>
where
    X: Cx<Input = Goal, Result = Outcome>,
    D: Delegate<Cx = X, ProofTreeBuilder = Builder>,
{
    for ((_, goal), answered) in questions.iter().zip(answers.iter()) {
        if said.contradicts(*goal, answered.answer.result)? {
            return Ok(Some("yes and no"));
        }
        let flaw = flaw_of_graph::<X, D>(alloc, cache, rules, *goal, answered.answer)?;
        if flaw.is_some() {
            return Ok(flaw);
        }
    }
    Ok(None)
}

/// What is wrong with the graph that the answer names, if it names one.
fn flaw_of_graph<X, D>(
    alloc: Global,
    cache: &GlobalCache<D>,
    rules: &Rules,
    goal: Goal,
    answer: Answer<Outcome>,
) -> Result<Option<&'static str>, Fail>
where
    X: Cx<Input = Goal, Result = Outcome>,
    D: Delegate<Cx = X, ProofTreeBuilder = Builder>,
{
    let Some(root) = answer.node else {
        return Ok(None);
    };
    match ShownGraph::read::<X, D>(alloc, cache, root)? {
        Some(shown) => shown.flaw(rules, goal, answer.result),
        None => Ok(Some("an open node")),
    }
}

/// Counts the table if both goals are answered yes or no within the limits, without the provisional cache where `PROVISIONAL`
/// is 0.
fn note_decided<const PROVISIONAL: usize>(
    alloc: Global,
    rules: &Rules,
    counts: &mut Counts,
) -> Result<(), Fail> {
    let cx = Table { lender: rules };
    if are_decided::<Table<&Rules>, TableDelegate<'_, 8, PROVISIONAL>>(alloc, cx, rules)? {
        counts.decided = counts.decided.saturating_add(1);
    }
    Ok(())
}

/// Whether both goals are answered yes or no at depth 4, and no limit is met.
fn are_decided<X, D>(alloc: Global, cx: X, rules: &Rules) -> Result<bool, Fail>
where
    X: Cx<Input = Goal, Result = Outcome>,
    D: Delegate<Cx = X, ProofTreeBuilder = Builder>,
{
    let mut cache = GlobalCache::<D>::new(alloc, cx);
    Ok(
        is_decided::<X, D>(alloc, &mut cache, rules, b"A")?
            && is_decided::<X, D>(alloc, &mut cache, rules, b"B")?,
    )
}

fn is_decided<X, D>(
    alloc: Global,
    cache: &mut GlobalCache<D>,
    rules: &Rules,
    name: &[u8],
) -> Result<bool, Fail>
where
    X: Cx<Input = Goal, Result = Outcome>,
    D: Delegate<Cx = X, ProofTreeBuilder = Builder>,
{
    let goal = rules.goal(name).ok_or("no goal")?;
    let answered = ask::<X, D>(alloc, cache, Way::Question, 4, goal)?;
    Ok(is_definite(answered.answer.result) && !answered.limits_met)
}
