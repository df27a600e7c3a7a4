//! Tests of what candidates used of the goals on the stack.

use crate::parts::told::{Counts, Told, usages_of};
use cycle_heads::candidates::CandidateHeadUsages;
use cycle_heads::depth::StackDepth;
use path_kinds::memory::NoMemory;
use std::alloc::Global;
use std::test::Fail;

/// What is done with a candidate.
#[derive(Clone, Copy)]
enum Act {
    /// Usages of the head are noted.
    Note(usize, Counts),
    /// The usages of another candidate are added, which used two heads so often.
    Merge((usize, u32), (usize, u32)),
    /// All is forgotten.
    Clear,
}

/// What is done with a candidate that used no head, and what it used after each act, by heads.
const ROWS: [(&str, &[Act], &str); 4] = [
    (
        "noted usages count once",
        &[
            Act::Note(1, [7, 0, 0, 0]),
            Act::Note(1, [7, 0, 0, 0]),
            Act::Note(0, [0, 0, 0, 0]),
        ],
        "1 1i ; 1 2i ; 0 - 1 2i ; ",
    ),
    (
        "merged usages are sums",
        &[Act::Merge((0, 6), (2, 3)), Act::Merge((0, 9), (1, 5))],
        "0 6i 2 3i ; 0 15i 1 5i 2 3i ; ",
    ),
    (
        "no usages add nothing",
        &[Act::Merge((0, 0), (1, 5)), Act::Merge((0, 0), (1, 0))],
        "1 5i ; 1 5i ; ",
    ),
    (
        "what is forgotten is noted anew",
        &[
            Act::Note(2, [0, 1, 3, 0]),
            Act::Clear,
            Act::Note(3, [0, 0, 0, 1]),
        ],
        "2 1u1c ; none ; 3 1f ; ",
    ),
];

#[test]
fn candidates_are_as_told(rt: HostRuntime) -> Result<(), Fail> {
    for (name, acts, wanted) in ROWS {
        let told = tell_acts(rt.alloc(), acts).text()?;
        assert_eq!(rt; told.as_str(), wanted, "{name}");
    }
    Ok(())
}

fn tell_acts(alloc: Global, acts: &[Act]) -> Told {
    let mut told = Told::new(alloc);
    let mut candidate = CandidateHeadUsages::new(alloc);
    if !finds_all(&candidate) {
        told.say("a new candidate has heads");
    }
    for act in acts {
        if carry_out(alloc, &mut candidate, *act).is_err() {
            told.say("no memory ");
        }
        tell(&mut told, &candidate);
    }
    told
}

fn carry_out(alloc: Global, candidate: &mut CandidateHeadUsages, act: Act) -> Result<(), NoMemory> {
    match act {
        Act::Note(head, counts) => candidate.note_usages(StackDepth::new(head), usages_of(counts)),
        Act::Merge(first, second) => candidate.merge_usages(of_heads(alloc, first, second)?),
        Act::Clear => {
            candidate.clear();
            Ok(())
        }
    }
}

/// A candidate that used two heads so often.
fn of_heads(
    alloc: Global,
    first: (usize, u32),
    second: (usize, u32),
) -> Result<CandidateHeadUsages, NoMemory> {
    let mut candidate = CandidateHeadUsages::new(alloc);
    use_often(&mut candidate, first.0, first.1)?;
    use_often(&mut candidate, second.0, second.1)?;
    Ok(candidate)
}

/// Notes so many usages of the head by inductive cycles.
fn use_often(candidate: &mut CandidateHeadUsages, head: usize, count: u32) -> Result<(), NoMemory> {
    for _ in 0..count {
        candidate.note_usages(StackDepth::new(head), usages_of([1, 0, 0, 0]))?;
    }
    Ok(())
}

/// The heads with their usages, by rising depth.
fn tell(told: &mut Told, candidate: &CandidateHeadUsages) {
    if candidate.is_empty() {
        told.say("none ");
    }
    for (head, usages) in candidate.as_slice() {
        told.number("", head.index());
        told.usages(" ", *usages);
        told.say(" ");
    }
    if !finds_all(candidate) {
        told.say("found otherwise");
    }
    told.say("; ");
}

/// Whether each head is found with the usages that it has in the list, and of the first eight no other one is found.
fn finds_all(candidate: &CandidateHeadUsages) -> bool {
    let listed = candidate.as_slice();
    for (head, usages) in listed {
        if candidate.get(*head) != Some(*usages) {
            return false;
        }
    }
    let found = found_heads(candidate);
    found == listed.len() && candidate.is_empty() == (found == 0)
}

/// How many of the first eight heads are found.
fn found_heads(candidate: &CandidateHeadUsages) -> usize {
    let mut found = 0usize;
    for head in 0..8usize {
        if candidate.get(StackDepth::new(head)).is_some() {
            found = found.saturating_add(1);
        }
    }
    found
}
