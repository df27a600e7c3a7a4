//! The search beside the plain definition, on all tables of two small types and on random tables.

use crate::chance::Chance;
use crate::searches::uses::agreed::{agreed, answered_otherwise};
use crate::searches::uses::sides::{Side, declare_all};
use std::alloc::Global;
use std::process::Abort;
use std::test::Fail;
use structural_types::{Field, Form, Types};

/// Compares the search with the plain definition on each pair of the types, from the last one on, by its graphs and as
/// it is asked without. How many were below?
fn count_below(alloc: Global, types: &Types, size: usize) -> Result<usize, Fail> {
    let plain = agreed(alloc, types, size)?;
    let asked = plain.asked(alloc)?;
    if answered_otherwise::<&Types>(alloc, types, asked.as_slice())?.is_some() {
        return Err("the search answers otherwise")?;
    }
    Ok(plain.count())
}

/// The small types over two types.
const SIDES: [Side; 24] = [
    Side::Base(1),
    Side::Base(2),
    Side::Top,
    Side::Bottom,
    Side::Function(0, 0),
    Side::Function(0, 1),
    Side::Function(1, 0),
    Side::Function(1, 1),
    Side::Record(&[]),
    Side::Record(&[(1, 0)]),
    Side::Record(&[(1, 1)]),
    Side::Record(&[(2, 0)]),
    Side::Record(&[(2, 1)]),
    Side::Record(&[(1, 0), (2, 0)]),
    Side::Record(&[(1, 0), (2, 1)]),
    Side::Record(&[(2, 0), (1, 1)]),
    Side::Record(&[(1, 1), (2, 1)]),
    Side::Union(&[]),
    Side::Union(&[0]),
    Side::Union(&[1]),
    Side::Union(&[0, 0]),
    Side::Union(&[0, 1]),
    Side::Union(&[1, 0]),
    Side::Union(&[1, 1]),
];

#[test]
fn all_small_tables_are_answered_plainly(rt: HostRuntime) -> Result<(), Fail> {
    let mut below = 0usize;
    for first in SIDES {
        for second in SIDES {
            below = below.saturating_add(small_table(rt.alloc(), [first, second])?);
        }
    }
    // of 2304 pairs some are below and some are not
    assert!(rt; below > 1152 && below < 2304, "{below}");
    Ok(())
}

/// How many pairs of the two are below?
fn small_table(alloc: Global, sides: [Side; 2]) -> Result<usize, Fail> {
    let mut types = Types::new(alloc);
    declare_all(alloc, &mut types, &sides)?;
    count_below(alloc, &types, 2)
}

/// A random form over so many types. Parts that lie ahead and behind are as likely.
fn random_form(alloc: Global, chance: &mut Chance, size: usize) -> Result<Form, Fail> {
    match chance.below(9) {
        0 => Ok(Form::Base(1)),
        1 => Ok(Form::Base(2)),
        2 => Ok(Form::Top),
        3 => Ok(Form::Bottom),
        4 => Ok(Form::Function(chance.below(size), chance.below(size))),
        5 | 6 => random_record(alloc, chance, size),
        _ => random_union(alloc, chance, size),
    }
}

fn random_record(alloc: Global, chance: &mut Chance, size: usize) -> Result<Form, Fail> {
    let mut fields = Vec::new(alloc);
    for name in 1..4 {
        if chance.below(3) > 0 {
            fields.push(Field {
                name,
                part: chance.below(size),
            })?;
        }
    }
    Ok(Form::Record(fields))
}

fn random_union(alloc: Global, chance: &mut Chance, size: usize) -> Result<Form, Fail> {
    let mut alternatives = Vec::new(alloc);
    for _ in 0..3 {
        if chance.below(4) > 0 {
            alternatives.push(chance.below(size))?;
        }
    }
    Ok(Form::Union(alternatives))
}

/// A random table of so many types.
fn random_types(alloc: Global, chance: &mut Chance, size: usize) -> Result<Types, Fail> {
    let mut types = Types::new(alloc);
    for _ in 0..size {
        types.declare(random_form(alloc, chance, size)?)?;
    }
    Ok(types)
}

/// Compares the search with the plain definition on so many random tables of so many types. Each type is below itself.
fn try_tables(alloc: Global, seed: u64, tables: usize, size: usize) -> Result<(), Fail> {
    let mut chance = Chance::new(seed);
    for _ in 0..tables {
        let types = random_types(alloc, &mut chance, size)?;
        if count_below(alloc, &types, size)? < size {
            return Err("a type is not below itself")?;
        }
    }
    Ok(())
}

/// Seeds, how many tables are drawn of each, and of how many types.
const DRAWN: [(u64, usize, usize); 4] = [(20261124, 50, 3), (4, 25, 4), (6, 10, 6), (8, 5, 8)];

#[test]
fn random_tables_are_answered_plainly(rt: HostRuntime) -> Result<(), Fail> {
    for (seed, tables, size) in DRAWN {
        try_tables(rt.alloc(), seed, tables, size)?;
    }
    Ok(())
}
