//! Tests of counts of usages.

use crate::parts::told::{Counts, KINDS, Told, usages_of};
use cycle_heads::usages::HeadUsages;
use path_kinds::path::PathKind;
use std::alloc::Global;
use std::test::Fail;

/// What is done with counts.
#[derive(Clone, Copy)]
enum Act {
    /// The counts are these.
    Set(Counts),
    /// One more cycle of the kind is counted.
    Add(PathKind),
    /// The usages of a nested goal are counted.
    AddNested(Counts),
    /// Usages are taken away.
    Ignore(Counts),
}

const MAX: u32 = u32::MAX;

/// What is done with counts that are zero, and what they are after each act, with the kinds of which they are single.
const ROWS: [(&str, &[Act], &str); 7] = [
    (
        "nested usages count once",
        &[Act::Set([1, 0, 0, 0]), Act::AddNested([3, 0, 1, 0])],
        "1i single: i, 2i1c single: , ",
    ),
    (
        "nested usages stick",
        &[Act::Set([0, 0, MAX, 0]), Act::AddNested([0, 0, 7, 0])],
        "4294967295c single: c, 4294967295c single: c, ",
    ),
    (
        "a stuck count stays",
        &[
            Act::Set([MAX - 1, 0, 0, 0]),
            Act::Add(PathKind::Inductive),
            Act::Ignore([1, 0, 0, 0]),
            Act::Ignore([MAX, 0, 0, 0]),
        ],
        "4294967294i single: i, 4294967295i single: i, 4294967295i single: i, 4294967295i single: i, ",
    ),
    (
        "the greatest count that is exact can be ignored",
        &[
            Act::Set([MAX - 1, 0, 0, 0]),
            Act::Ignore([MAX - 1, 0, 0, 0]),
        ],
        "4294967294i single: i, - empty single: iucf, ",
    ),
    (
        "usages of one kind are single",
        &[Act::Set([0, 0, 1, 0]), Act::Add(PathKind::Coinductive)],
        "1c single: c, 2c single: c, ",
    ),
    (
        "no usages are single of each kind",
        &[Act::AddNested([0, 0, 0, 0])],
        "- empty single: iucf, ",
    ),
    (
        "each kind has its count",
        &[
            Act::Add(PathKind::Unknown),
            Act::AddNested([0, 9, 0, 9]),
            Act::Ignore([0, 1, 0, 1]),
        ],
        "1u single: u, 2u1f single: , 1u single: u, ",
    ),
];

#[test]
fn usages_are_as_told(rt: HostRuntime) -> Result<(), Fail> {
    for (name, acts, wanted) in ROWS {
        let told = tell_acts(rt.alloc(), acts).text()?;
        assert_eq!(rt; told.as_str(), wanted, "{name}");
    }
    Ok(())
}

fn tell_acts(alloc: Global, acts: &[Act]) -> Told {
    let mut told = Told::new(alloc);
    let mut usages = HeadUsages::default();
    for act in acts {
        carry_out(&mut told, &mut usages, *act);
        tell(&mut told, usages);
    }
    told
}

fn carry_out(told: &mut Told, usages: &mut HeadUsages, act: Act) {
    match act {
        Act::Set(counts) => *usages = usages_of(counts),
        Act::Add(kind) => usages.add_usage(kind),
        Act::AddNested(counts) => usages.add_usages_from_nested(usages_of(counts)),
        Act::Ignore(counts) => ignore(told, usages, usages_of(counts)),
    }
}

/// Takes away usages, if all of them were counted.
fn ignore(told: &mut Told, usages: &mut HeadUsages, ignored: HeadUsages) {
    if ignored.inductive > usages.inductive
        || ignored.unknown > usages.unknown
        || ignored.coinductive > usages.coinductive
        || ignored.forced_ambiguity > usages.forced_ambiguity
    {
        told.say("more than there are ");
        return;
    }
    usages.ignore_usages(ignored);
}

fn tell(told: &mut Told, usages: HeadUsages) {
    told.usages("", usages);
    if usages.is_empty() {
        told.say(" empty");
    }
    told.say(" single: ");
    for kind in KINDS {
        if usages.is_single(kind) {
            told.kind("", kind);
        }
    }
    told.say(", ");
}
