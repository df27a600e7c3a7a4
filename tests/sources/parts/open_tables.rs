//! Rules that change: who asks whom, and the goals that a change concerns, beside a plain search for them. Any one request for
//! memory may be refused, and then nothing has changed.

use askers::Askers;
use candidate_lists::CandidateLists;
use open_tables::{Asking, Goal, OpenRules, OpenTable};
use search_context::path::PathKind;
use std::alloc::Global;
use std::process::Abort;
use std::test::Fail;

const GOALS: usize = 12;

const CHANGES: usize = 1500;

/// A number that looks random.
fn next(state: &mut u64) -> usize {
    *state = state
        .wrapping_mul(6364136223846793005)
        .wrapping_add(1442695040888963407);
    (*state >> 33) as usize
}

/// So many numbers below those of the goals, as looks random.
fn some_goals(alloc: Global, state: &mut u64, most: usize) -> Result<Vec<u32>, Fail> {
    let mut goals = Vec::new(alloc);
    for _ in 0..next(state) % (most + 1) {
        goals.push((next(state) % GOALS) as u32)?;
    }
    Ok(goals)
}

/// Whether each goal can reach one of these, by what each asks.
fn reaching(alloc: Global, asks: &[Vec<u32>], changed: &[u32]) -> Result<Vec<bool>, Fail> {
    let mut found = vec![in alloc; false; GOALS]?;
    for one in changed {
        found[*one as usize] = true;
    }
    for _ in 0..GOALS {
        for goal in 0..GOALS {
            for one in &asks[goal] {
                found[goal] = found[goal] || found[*one as usize];
            }
        }
    }
    Ok(found)
}

/// Whether just the goals are concerned that can reach one of these.
fn are_concerned(
    alloc: Global,
    askers: &Askers<u32>,
    asks: &[Vec<u32>],
    changed: &[u32],
) -> Result<bool, Fail> {
    let concerned = match askers.concerned(changed) {
        Ok(concerned) => concerned,
        Err(_) => askers.concerned(changed)?,
    };
    let wanted = reaching(alloc, asks, changed)?;
    for goal in 0..GOALS {
        if concerned.contains(&(goal as u32)) != wanted[goal] {
            return Ok(false);
        }
    }
    Ok(true)
}

#[test]
fn who_can_reach_a_goal_is_concerned(rt: HostRuntime) -> Result<(), Fail> {
    let alloc = rt.alloc();
    let mut state = 7;
    let mut askers: Askers<u32> = Askers::new(alloc);
    let mut asks: Vec<Vec<u32>> = Vec::new(alloc);
    for _ in 0..GOALS {
        asks.push(Vec::new(alloc))?;
    }
    for _ in 0..CHANGES {
        let goal = next(&mut state) % GOALS;
        let asked = some_goals(alloc, &mut state, 2)?;
        match next(&mut state) % 4 {
            0 => {
                askers.clear(goal as u32);
                asks[goal].clear();
            }
            1 => {
                if askers.set(goal as u32, asked.as_slice()).is_err() {
                    assert!(rt; are_concerned(alloc, &askers, asks.as_slice(), &[goal as u32])?);
                    askers.set(goal as u32, asked.as_slice())?;
                }
                asks[goal] = asked;
            }
            2 if asks[goal].len() < 3 => {
                if askers.add(goal as u32, asked.as_slice()).is_err() {
                    assert!(rt; are_concerned(alloc, &askers, asks.as_slice(), &[goal as u32])?);
                    askers.add(goal as u32, asked.as_slice())?;
                }
                for one in &asked {
                    asks[goal].push(*one)?;
                }
            }
            _ => {}
        }
        let changed = some_goals(alloc, &mut state, 3)?;
        assert!(rt; are_concerned(alloc, &askers, asks.as_slice(), changed.as_slice())?);
    }
    Ok(())
}

/// A question of this kind.
fn asking(alloc: Global, kind: PathKind, goal: Goal) -> Result<Vec<Asking>, Fail> {
    let mut questions = Vec::new(alloc);
    questions.push(Asking { kind, goal })?;
    Ok(questions)
}

/// How many candidates the goal has.
fn candidate_count(table: &OpenTable, goal: Goal) -> usize {
    let rules = OpenRules { lender: table };
    let mut count = 0;
    while rules.mark(goal, count).is_some() {
        count += 1;
    }
    count
}

/// The goal of this name. One request may be refused.
fn named(table: &mut OpenTable, name: &[u8]) -> Result<Goal, Fail> {
    match table.goal_named(name) {
        Ok(goal) => Ok(goal),
        Err(_) => Ok(table.goal_named(name)?),
    }
}

#[test]
fn rules_are_added_and_cleared(rt: HostRuntime) -> Result<(), Fail> {
    let alloc = rt.alloc();
    let mut table = OpenTable::new(alloc);
    let a = named(&mut table, b"A")?;
    let b = named(&mut table, b"B")?;
    let c = named(&mut table, b"C")?;
    assert!(rt; table.goal(b"A") == Some(a) && table.goal(b"D").is_none());
    assert!(rt; table.name(b) == Some(b"B") && table.count() == 3);

    // A asks B, and B asks C. The second rule of A comes behind the first.
    for _ in 0..2 {
        let questions = asking(alloc, PathKind::Inductive, b)?;
        if table.add(a, false, questions).is_err() {
            assert!(rt; table.concerned(&[b])?.len() == 1);
            table.add(a, false, asking(alloc, PathKind::Inductive, b)?)?;
        }
        table.add(a, true, asking(alloc, PathKind::Coinductive, c)?)?;
        table.add(b, false, asking(alloc, PathKind::Inductive, c)?)?;
        assert!(rt; candidate_count(&table, a) == 2 && candidate_count(&table, c) == 0);
        let concerned = table.concerned(&[c])?;
        assert!(rt; concerned.len() == 3);
        let concerned = table.concerned(&[b])?;
        assert!(rt; concerned.len() == 2 && !concerned.contains(&c));

        // A has no rules, and so asks nothing.
        table.clear(a);
        assert!(rt; candidate_count(&table, a) == 0);
        assert!(rt; table.concerned(&[b])?.len() == 1 && table.concerned(&[c])?.len() == 2);
        table.clear(b);
    }
    Ok(())
}
