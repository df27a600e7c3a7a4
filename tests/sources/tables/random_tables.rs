//! Tables drawn at random, whose goals ask inductively and coinductively alone.

use crate::chance::Chance;
use std::alloc::Global;
use std::io::Write;
use std::test::Fail;

/// A question of a candidate.
#[derive(Clone, Copy)]
pub struct Question {
    pub is_coinductive: bool,
    pub goal: usize,
}

/// One way in which a goal may hold: where all its questions do.
#[derive(Drop)]
pub struct Candidate {
    /// Whether it is ignored where one without a mark holds, which changes no answer.
    pub is_marked: bool,
    pub questions: Vec<Question>,
}

/// The candidates of a goal.
pub type Candidates = Vec<Candidate>;

/// By which kinds the goals of a table ask each other.
#[derive(Clone, Copy)]
pub enum Kinds {
    /// Goals that reach each other ask each other by one kind.
    OneInACycle,
    /// Each question is of either kind.
    Both,
}

/// A goal's place in the order of questions: where cycles are of one kind, it asks goals on its own level by the level's kind,
/// those on lower levels by either, and none on a higher one.
#[derive(Clone, Copy)]
struct Level {
    number: usize,
    is_coinductive: bool,
}

/// The candidates of so many goals.
pub fn random_goals(
    alloc: Global,
    chance: &mut Chance,
    count: usize,
    kinds: Kinds,
) -> Result<Vec<Candidates>, Fail> {
    let levels = random_levels(alloc, chance, count, kinds)?;
    let mut goals = Vec::new(alloc);
    for level in levels.as_slice() {
        let mut candidates = Vec::new(alloc);
        for _ in 0..chance.below(4) {
            candidates.push(random_candidate(alloc, chance, levels.as_slice(), *level, kinds)?)?;
        }
        goals.push(candidates)?;
    }
    Ok(goals)
}

/// The level of each of so many goals, of three at most; all are on one where both kinds may stand in a cycle.
fn random_levels(
    alloc: Global,
    chance: &mut Chance,
    count: usize,
    kinds: Kinds,
) -> Result<Vec<Level>, Fail> {
    let of_levels = [chance.once_in(2), chance.once_in(2), chance.once_in(2)];
    let most = match kinds {
        Kinds::OneInACycle => 3,
        Kinds::Both => 1,
    };
    let mut levels = Vec::new(alloc);
    for _ in 0..count {
        let number = chance.below(most);
        let is_coinductive = of_levels.get(number).copied().unwrap_or(false);
        levels.push(Level {
            number,
            is_coinductive,
        })?;
    }
    Ok(levels)
}

/// A candidate of a goal on this level, with up to three questions.
fn random_candidate(
    alloc: Global,
    chance: &mut Chance,
    levels: &[Level],
    own: Level,
    kinds: Kinds,
) -> Result<Candidate, Fail> {
    let mut questions = Vec::new(alloc);
    for _ in 0..chance.below(4) {
        let goal = chance.below(levels.len());
        let level = levels.get(goal).copied().unwrap_or(own);
        let is_free = level.number < own.number || matches!(kinds, Kinds::Both);
        if level.number > own.number {
            continue;
        }
        let is_coinductive = if is_free {
            chance.once_in(2)
        } else {
            own.is_coinductive
        };
        questions.push(Question {
            is_coinductive,
            goal,
        })?;
    }
    Ok(Candidate {
        is_marked: chance.once_in(6),
        questions,
    })
}

/// The goals as a table of rules, in which each is asked in turn at a depth of as many goals as there are.
pub fn text_of(alloc: Global, goals: &[Candidates]) -> Result<Vec<u8>, Fail> {
    let mut text = Vec::new(alloc);
    for (number, candidates) in goals.iter().enumerate() {
        for candidate in candidates.iter() {
            write_rule(&mut text, number, candidate)?;
        }
    }
    let depth = goals.len();
    for number in 0..depth {
        write!(text, "ask {depth} g{number}\n")?;
    }
    Ok(text)
}

fn write_rule(text: &mut Vec<u8>, number: usize, candidate: &Candidate) -> Result<(), Fail> {
    if candidate.is_marked {
        write!(text, "rule ~g{number} =")?;
    } else {
        write!(text, "rule g{number} =")?;
    }
    for question in candidate.questions.iter() {
        write_question(text, *question)?;
    }
    write!(text, "\n")?;
    Ok(())
}

fn write_question(text: &mut Vec<u8>, question: Question) -> Result<(), Fail> {
    let goal = question.goal;
    if question.is_coinductive {
        write!(text, " c:g{goal}")?;
    } else {
        write!(text, " i:g{goal}")?;
    }
    Ok(())
}
