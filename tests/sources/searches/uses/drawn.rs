//! Texts drawn at random.

use crate::chance::Chance;
use crate::searches::uses::agreed::agreed;
use std::alloc::Global;
use std::io::Write;
use std::process::Abort;
use std::test::Fail;
use type_texts::{ReadFault, TypeTable};

/// A text of so many types, `t0` and so on.
fn random_text(alloc: Global, chance: &mut Chance, size: usize) -> Result<Vec<u8>, Fail> {
    let mut text = Vec::new(alloc);
    for number in 0..size {
        write!(text, "type t{number} =")?;
        write_side(&mut text, chance, size)?;
        text.push(b'\n')?;
    }
    Ok(text)
}

/// A right side with parts of these types.
fn write_side(text: &mut Vec<u8>, chance: &mut Chance, size: usize) -> Result<(), Fail> {
    let first = chance.below(size);
    let second = chance.below(size);
    match chance.below(10) {
        0 => write!(text, " base x")?,
        1 => write!(text, " base y")?,
        2 => write!(text, " top")?,
        3 => write!(text, " bottom")?,
        4 | 5 => write!(text, " t{first} -> t{second}")?,
        6 | 7 => write_record(text, chance, size)?,
        8 => write!(text, " t{first} | t{second}")?,
        _ => {
            let third = chance.below(size);
            write!(text, " t{first} | t{second} | t{third}")?;
        }
    }
    Ok(())
}

/// A record with some of three fields.
fn write_record(text: &mut Vec<u8>, chance: &mut Chance, size: usize) -> Result<(), Fail> {
    write!(text, " {{")?;
    for field in ["x", "y", "z"] {
        if chance.below(3) > 0 {
            let part = chance.below(size);
            write!(text, " {field}: t{part}")?;
        }
    }
    write!(text, " }}")?;
    Ok(())
}

/// What texts came to.
#[derive(Clone, Copy, Debug, Default)]
struct Tally {
    answered: usize,
    /// How many pairs were below.
    below: usize,
}

/// Compares the search with the plain fixpoint on so many texts of so many types. A text with a union of itself is read as
/// such, and not answered. Each type is below itself, and not all are below each other.
fn expect_texts(
    rt: &(impl Abort + AllocGlobal),
    seed: u64,
    texts: usize,
    size: usize,
) -> Result<(), Fail> {
    let mut chance = Chance::new(seed);
    let mut tally = Tally::default();
    for _ in 0..texts {
        let text = random_text(rt.alloc(), &mut chance, size)?;
        if let Some(below) = below_in(rt.alloc(), text.as_slice(), size)? {
            tally.answered = tally.answered.saturating_add(1);
            tally.below = tally.below.saturating_add(below);
        }
    }
    expect_tally(rt, tally, texts, size);
    Ok(())
}

/// How many pairs of the text's types are below. Nothing is said of a text that has a union of itself.
fn below_in(alloc: Global, text: &[u8], size: usize) -> Result<Option<usize>, Fail> {
    match TypeTable::read(alloc, text) {
        Ok(table) => Ok(Some(below_of(alloc, &table, size)?)),
        Err(ReadFault::Unguarded(_)) => Ok(None),
        Err(fault) => Err(fault)?,
    }
}

/// How many pairs are below.
fn below_of(alloc: Global, table: &TypeTable, size: usize) -> Result<usize, Fail> {
    let pairs = agreed(alloc, table.types(), size)?;
    if !(0..size).all(|number| pairs.has(number, number)) {
        return Err("a type is not below itself")?;
    }
    Ok(pairs.count())
}

fn expect_tally(rt: &impl Abort, tally: Tally, texts: usize, size: usize) {
    let own = tally.answered.saturating_mul(size);
    assert!(rt; tally.answered > texts / 2, "{tally:?}");
    assert!(rt;
        tally.below > own && tally.below < own.saturating_mul(size),
        "{tally:?}"
    );
}

#[test]
fn texts_of_three_types_are_answered_plainly(rt: HostRuntime) -> Result<(), Fail> {
    expect_texts(&rt, 3, 250, 3)
}

#[test]
fn texts_of_five_types_are_answered_plainly(rt: HostRuntime) -> Result<(), Fail> {
    expect_texts(&rt, 5, 150, 5)
}

#[test]
fn texts_of_eight_types_are_answered_plainly(rt: HostRuntime) -> Result<(), Fail> {
    expect_texts(&rt, 8, 100, 8)
}
