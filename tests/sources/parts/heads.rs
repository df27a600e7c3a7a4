//! Tests of the goals on the stack that an answer rests on.

use crate::parts::told::{Counts, Told, usages_of};
use cycle_heads::depth::StackDepth;
use cycle_heads::heads::CycleHeads;
use cycle_heads::usages::HeadUsages;
use path_kinds::memory::NoMemory;
use path_kinds::path::PathsToNested;
use std::alloc::Global;
use std::test::Fail;

/// What is done with the heads of an answer.
#[derive(Clone, Copy)]
enum Act {
    /// The heads are new ones.
    Renew,
    /// A head of this depth is put in.
    Insert(usize, PathsToNested, Counts),
    /// The head of the greatest depth is taken out, and told.
    TakeHighest,
    /// The heads are one of depth 2 over an inductive path with the first usages, of which the second are ignored.
    IgnoreOfOne(u32, u32),
}

/// What is done with no heads, and the heads after each act: all of them with their depths, paths and usages, the lowest
/// depth, and the highest head.
const ROWS: [(&str, &[Act], &str); 5] = [
    ("new heads are none", &[Act::Renew], "from - to -; "),
    (
        "a known head joins paths and counts once",
        &[
            Act::Insert(0, PathsToNested::INDUCTIVE, [0, 0, 5, 0]),
            Act::Insert(0, PathsToNested::COINDUCTIVE, [2, 0, 5, 0]),
        ],
        "0 i 5c, from 0 to 0, last 0 i 5c; 0 ic 1i6c, from 0 to 0, last 0 ic 1i6c; ",
    ),
    (
        "a stuck count of a head stays",
        &[
            Act::Insert(3, PathsToNested::EMPTY, [u32::MAX, 0, 0, 0]),
            Act::Insert(3, PathsToNested::EMPTY, [5, 0, 0, 0]),
        ],
        "3 e 4294967295i, from 3 to 3, last 3 e 4294967295i; 3 e 4294967295i, from 3 to 3, last 3 e 4294967295i; ",
    ),
    (
        "heads are walked and taken by depth",
        &[
            Act::Insert(4, PathsToNested::UNKNOWN, [1, 0, 0, 0]),
            Act::Insert(1, PathsToNested::UNKNOWN, [1, 0, 0, 0]),
            Act::Insert(9, PathsToNested::UNKNOWN, [1, 0, 0, 0]),
            Act::TakeHighest,
            Act::TakeHighest,
            Act::TakeHighest,
        ],
        "4 u 1i, from 4 to 4, last 4 u 1i; 1 u 1i, 4 u 1i, from 1 to 4, last 4 u 1i; \
         1 u 1i, 4 u 1i, 9 u 1i, from 1 to 9, last 9 u 1i; took u 1i: 1 u 1i, 4 u 1i, from 1 to 4, last 4 u 1i; \
         took u 1i: 1 u 1i, from 1 to 1, last 1 u 1i; took u 1i: from - to -; ",
    ),
    (
        "usages of a head are ignored",
        &[Act::IgnoreOfOne(3, 2)],
        "2 i 1i, from 2 to 2, last 2 i 1i; ",
    ),
];

#[test]
fn heads_are_as_told(rt: HostRuntime) -> Result<(), Fail> {
    for (name, acts, wanted) in ROWS {
        let told = tell_acts(rt.alloc(), acts).text()?;
        assert_eq!(rt; told.as_str(), wanted, "{name}");
    }
    Ok(())
}

fn tell_acts(alloc: Global, acts: &[Act]) -> Told {
    let mut told = Told::new(alloc);
    let mut heads = CycleHeads::new(alloc);
    for act in acts {
        carry_out(alloc, &mut told, &mut heads, *act);
        tell(&mut told, &heads);
    }
    told
}

fn carry_out(alloc: Global, told: &mut Told, heads: &mut CycleHeads, act: Act) {
    match act {
        Act::Renew => *heads = CycleHeads::new(alloc),
        Act::Insert(depth, paths, counts) => {
            insert(told, heads, depth, paths, usages_of(counts));
        }
        Act::TakeHighest => take_highest(told, heads),
        Act::IgnoreOfOne(count, ignored) => ignore_of_one(alloc, told, heads, count, ignored),
    }
}

fn insert(
    told: &mut Told,
    heads: &mut CycleHeads,
    depth: usize,
    paths: PathsToNested,
    usages: HeadUsages,
) {
    if heads.insert(StackDepth::new(depth), paths, usages).is_err() {
        told.say("no memory ");
    }
}

fn take_highest(told: &mut Told, heads: &mut CycleHeads) {
    if heads.is_empty() {
        told.say("no head to be taken ");
        return;
    }
    let head = heads.remove_highest_cycle_head();
    told.head("took ", head);
    told.say(": ");
}

fn ignore_of_one(alloc: Global, told: &mut Told, heads: &mut CycleHeads, count: u32, ignored: u32) {
    if ignored > count {
        told.say("more than there are ");
        return;
    }
    match ignored_of_one(alloc, count, ignored) {
        Ok(left) => *heads = left,
        Err(NoMemory) => told.say("no memory "),
    }
}

fn ignored_of_one(alloc: Global, count: u32, ignored: u32) -> Result<CycleHeads, NoMemory> {
    let depth = StackDepth::new(2);
    let mut heads = CycleHeads::new(alloc);
    let usages = HeadUsages {
        inductive: count,
        unknown: 0,
        coinductive: 0,
        forced_ambiguity: 0,
    };
    heads.insert(depth, PathsToNested::INDUCTIVE, usages)?;
    let usages = HeadUsages {
        inductive: ignored,
        unknown: 0,
        coinductive: 0,
        forced_ambiguity: 0,
    };
    heads.ignore_usages(depth, usages);
    Ok(heads)
}

/// The heads, which are told by each call that looks at them.
fn tell(told: &mut Told, heads: &CycleHeads) {
    for (depth, head) in heads.as_slice() {
        told.number("", depth.index());
        told.head(" ", *head);
        told.say(", ");
    }
    tell_depth(told, "from", heads.opt_lowest_cycle_head_index());
    tell_depth(told, " to", heads.opt_highest_cycle_head_index());
    tell_highest(told, heads);
    told.say("; ");
}

/// The word and the depth, or a dash where there is none.
fn tell_depth(told: &mut Told, word: &str, depth: Option<StackDepth>) {
    told.say(word);
    match depth {
        Some(depth) => told.number(" ", depth.index()),
        None => told.say(" -"),
    }
}

fn tell_highest(told: &mut Told, heads: &CycleHeads) {
    if heads.is_empty() {
        return;
    }
    let (depth, head) = heads.highest_cycle_head();
    if heads.highest_cycle_head_index() != depth {
        told.say(" (otherwise)");
    }
    told.number(", last ", depth.index());
    told.head(" ", head);
}
