//! Asks random tables for as many seconds as one likes. `tests/soak` proves and builds this program, refuses it memory now and
//! then, and says what it tells.
#![tactic(auto)]

mod bare_calls;
mod chance;
mod failed;
mod tables;

use chance::Chance;
use std::alloc::Global;
use std::io::Read;
use std::rt::Clock;
use std::test::Fail;
use std::time::Instant;
use tables::{Tally, soak_table};

/// Room for the input, so that reading takes no more memory.
const ROOM: usize = 100;

/// The input is how many seconds tables are asked, and the seed. Nothing is asked where there is none.
fn main(rt: HostRuntime) -> Result<(), Fail> {
    let mut input = Vec::with_capacity(rt.alloc(), ROOM)?;
    rt.stdin().read_to_end(&mut input)?;
    if input.is_empty() {
        return Ok(());
    }
    soak_for(&rt, input.as_slice())
}

/// Asks random tables for as many seconds as the first number says, with the second one as the seed, and tells every second
/// what came of it. The first thing that is wrong ends it.
fn soak_for(rt: &(impl AllocGlobal + Clock + Print), words: &[u8]) -> Result<(), Fail> {
    let end = words
        .iter()
        .position(|byte| *byte == b' ')
        .ok_or("no seed")?;
    let (seconds, seed) = words.split_at_checked(end).ok_or("no seed")?;
    soak_from(rt, number_in(seconds)?, Chance::new(number_in(seed)?))
}

fn soak_from(
    rt: &(impl AllocGlobal + Clock + Print),
    seconds: u64,
    mut chance: Chance,
) -> Result<(), Fail> {
    let mut tally = Tally::default();
    let start = Instant::now(rt)?;
    let mut told = 0u64;
    for table in 1..u64::MAX {
        soak_table(rt.alloc(), &mut chance, &mut tally)?;
        let now = start.elapsed(rt)?.as_secs();
        if now > told {
            told = now;
            tell_tally(rt, now, table, tally)?;
        }
        if now >= seconds {
            break;
        }
    }
    Ok(())
}

fn tell_tally(rt: &impl Print, now: u64, table: u64, tally: Tally) -> Result<(), Fail> {
    let Tally {
        questions,
        checked,
        refused,
        frames,
    } = tally;
    println!(rt;
        "{now} s: {table} tables, {questions} questions, {frames} frames; {checked} answers checked, {refused} refused"
    )?;
    Ok(())
}

/// The number that the word is.
fn number_in(word: &[u8]) -> Result<u64, Fail> {
    let word = std::str::from_utf8(word).map_err(|_| "no text")?;
    Ok(word.trim().parse::<u64>().map_err(|_| "no number")?)
}
