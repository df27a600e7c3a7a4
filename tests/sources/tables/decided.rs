//! The search beside a solver, where a goal has two runs at most.
//!
//! A run has how many tables are drawn and of how many goals, whether goals that reach each other ask each other by one kind
//! (`one_kind`) or by both (`both_kinds`), and whether a script asks all questions of its goal (`all`), does so with the
//! context that `candidate_lists` makes (`lists`), or stops early (`early`). Where both kinds may stand in a cycle, the provisional cache is not used. Each goal of each table is answered as
//! the solver says, no limit is met, many goals are proved, many are refuted, and some are run twice.
//!
//! That is proved for all tables, and the checks at run time make a table slow, so the rows draw some hundreds. Whoever wants
//! more writes greater numbers into them, and calls `tests/unproved tables`: ten times as many take four minutes, and for more
//! than that the script has to give the run more seconds. The first tables of a row stay the same.

use crate::chance::Chance;
use crate::tables::asked::{Way, ask};
use crate::tables::random_tables::{Kinds, random_goals, text_of};
use crate::tables::solved::have_proofs;
use candidate_lists::{AnyOf, CandidatesContext, CandidatesDelegate, ContextOf};
use delegate_parts::{Builder, Outcome};
use early_scripts::EarlyDelegate;
use rule_tables::delegate::Table;
use rule_tables::{Goal, Rules, TableDelegate};
use search_parts::context::{Cx, Delegate};
use search_parts::global_cache::GlobalCache;
use std::alloc::Global;
use std::io::Write;
use std::test::Fail;

/// Which questions a script asks.
#[derive(Clone, Copy)]
enum Scripts {
    /// All of its goal's.
    AskAll,
    /// The same, with the context and the delegate of goals with candidates.
    AskLists,
    /// No more of a candidate after an answer that is not yes, and none after a candidate that holds.
    StopEarly,
}

/// What is drawn, and how it is asked.
#[derive(Clone, Copy)]
struct Draw {
    tables: usize,
    goals: usize,
    kinds: Kinds,
    scripts: Scripts,
}

/// What tables came to.
#[derive(Clone, Copy, Default)]
struct Tally {
    proved: usize,
    refuted: usize,
    /// The frames that were started.
    frames: u64,
}

/// Whether all tables are decided, or the first that is not.
pub fn tell(alloc: Global, options: &str) -> Result<Vec<u8>, Fail> {
    let draw = draw_of(options)?;
    let mut chance = Chance::new(draw.goals as u64);
    let mut tally = Tally::default();
    let mut told = Vec::new(alloc);
    for _ in 0..draw.tables {
        if !is_next_decided(alloc, &mut told, &mut chance, draw, &mut tally)? {
            return Ok(told);
        }
    }
    let asked = draw.tables.saturating_mul(draw.goals);
    let are_both_many = tally.proved > asked / 5 && tally.refuted > asked / 5;
    if are_both_many && tally.frames > asked as u64 {
        write!(told, "decided")?;
    } else {
        let Tally {
            proved,
            refuted,
            frames,
        } = tally;
        write!(told, "{proved} proved {refuted} refuted {frames} frames")?;
    }
    Ok(told)
}

fn draw_of(options: &str) -> Result<Draw, Fail> {
    let mut words = options.split(' ');
    Ok(Draw {
        tables: words.next().ok_or("no tables")?.parse::<usize>()?,
        goals: words.next().ok_or("no goals")?.parse::<usize>()?,
        kinds: match words.next() {
            Some("one_kind") => Kinds::OneInACycle,
            Some("both_kinds") => Kinds::Both,
            _ => Err("no kinds")?,
        },
        scripts: match words.next() {
            Some("all") => Scripts::AskAll,
            Some("lists") => Scripts::AskLists,
            Some("early") => Scripts::StopEarly,
            _ => Err("no scripts")?,
        },
    })
}

/// Whether the next table is decided. What is wrong with one that is not is told.
fn is_next_decided(
    alloc: Global,
    told: &mut Vec<u8>,
    chance: &mut Chance,
    draw: Draw,
    tally: &mut Tally,
) -> Result<bool, Fail> {
    let drawn = random_goals(alloc, chance, draw.goals, draw.kinds)?;
    let proved = have_proofs(alloc, drawn.as_slice())?;
    let text = text_of(alloc, drawn.as_slice())?;
    is_decided(alloc, told, text.as_slice(), proved.as_slice(), draw, tally)
}

/// Whether the table of this text is decided, the same way.
fn is_decided(
    alloc: Global,
    told: &mut Vec<u8>,
    text: &[u8],
    proved: &[bool],
    draw: Draw,
    tally: &mut Tally,
) -> Result<bool, Fail> {
    let flaw = flaw_of_text(alloc, text, proved, draw, tally)?;
    if let Some(flaw) = flaw {
        write!(told, "{flaw}\n")?;
        told.extend_from_slice(text)?;
    }
    Ok(flaw.is_none())
}

/// What is wrong with the answers to the questions of this text.
fn flaw_of_text(
    alloc: Global,
    text: &[u8],
    proved: &[bool],
    draw: Draw,
    tally: &mut Tally,
) -> Result<Option<&'static str>, Fail> {
    let rules = Rules::read(alloc, text)?;
    match draw.kinds {
        Kinds::OneInACycle => flaw_with::<1>(alloc, &rules, draw.scripts, proved, tally),
        Kinds::Both => flaw_with::<0>(alloc, &rules, draw.scripts, proved, tally),
    }
}

/// What is wrong with the answers of a search over these rules, without the provisional cache where `PROVISIONAL` is 0.
fn flaw_with<const PROVISIONAL: usize>(
    alloc: Global,
    rules: &Rules,
    scripts: Scripts,
    proved: &[bool],
    tally: &mut Tally,
) -> Result<Option<&'static str>, Fail> {
    let cx = Table { lender: rules };
    match scripts {
        Scripts::AskAll => flaw_of::<Table<&Rules>, TableDelegate<'_, 2, PROVISIONAL>>(
            alloc, cx, rules, proved, tally,
        ),
        Scripts::AskLists => flaw_of::<
            CandidatesContext<Table<&Rules>>,
            CandidatesDelegate<Table<&Rules>, 2, PROVISIONAL>,
        >(alloc, ContextOf(AnyOf(cx)), rules, proved, tally),
        Scripts::StopEarly => flaw_of::<Table<&Rules>, EarlyDelegate<&Rules, 2, PROVISIONAL>>(
            alloc, cx, rules, proved, tally,
        ),
    }
}

/// Asks each goal of the table over one cache, and adds up what they come to, or says what is wrong: a limit was met, or an
/// answer is not the solver's.
fn flaw_of<X, D>(
    alloc: Global,
    cx: X,
    rules: &Rules,
    proved: &[bool],
    tally: &mut Tally,
) -> Result<Option<&'static str>, Fail>
where
    X: Cx<Input = Goal, Result = Outcome>,
    D: Delegate<Cx = X, ProofTreeBuilder = Builder>,
{
    let mut cache = GlobalCache::<D>::new(alloc, cx);
    for ((depth, goal), is_proved) in rules.questions().iter().zip(proved) {
        let answered = ask::<X, D>(alloc, &mut cache, Way::Question, *depth, *goal)?;
        if answered.limits_met {
            return Ok(Some("a limit was met"));
        }
        if !tally.note(answered.answer.result, *is_proved, answered.started) {
            return Ok(Some("the solver says otherwise"));
        }
    }
    Ok(None)
}

impl Tally {
    /// Counts an answer that is the solver's, and says whether it is.
    fn note(&mut self, outcome: Outcome, is_proved: bool, started: u64) -> bool {
        self.frames = self.frames.saturating_add(started);
        match (outcome, is_proved) {
            (Outcome::Yes, true) => self.proved = self.proved.saturating_add(1),
            (Outcome::No, false) => self.refuted = self.refuted.saturating_add(1),
            _ => return false,
        }
        true
    }
}
