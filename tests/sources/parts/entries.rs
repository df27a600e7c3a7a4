//! Provisional entries for the tests of the provisional cache.

use crate::parts::told::{Counts, Told, usages_of};
use cycle_heads::depth::StackDepth;
use cycle_heads::heads::CycleHeads;
use delegate_parts::Outcome;
use path_kinds::path::{PathKind, PathsToNested};
use provisional_cache::{ProvisionalCache, ProvisionalCacheEntry};
use search_context::context::{Cx, Delegate, NoMemory, NodeId};
use std::alloc::Global;

/// The goal that has the entries.
pub const GOAL: PathKind = PathKind::Unknown;

/// An entry of the goal. It has one head, the first goal on the stack or the second one, which is reached by coinductive
/// paths. Its node is 5, if it is yes or no.
#[derive(Clone, Copy)]
pub struct TestEntry {
    pub head: usize,
    pub counts: Counts,
    pub encountered_overflow: bool,
    pub path_from_head: PathKind,
    pub result: Outcome,
}

impl TestEntry {
    fn node(self) -> Option<NodeId> {
        match self.result {
            Outcome::Yes | Outcome::No => Some(NodeId(5)),
            Outcome::Maybe | Outcome::Overflow => None,
        }
    }
}

/// An entry of yes over an inductive path, which used the second goal by a coinductive cycle.
pub const USER: TestEntry = TestEntry {
    head: 1,
    counts: [0, 0, 1, 0],
    encountered_overflow: false,
    path_from_head: PathKind::Inductive,
    result: Outcome::Yes,
};

/// One of no, which rests on the first goal alone.
pub const LOWER: TestEntry = TestEntry {
    head: 0,
    counts: [1, 0, 1, 0],
    encountered_overflow: false,
    path_from_head: PathKind::Inductive,
    result: Outcome::No,
};

/// The entry in the cache.
fn entry_of<X: Cx<Result = Outcome>>(
    alloc: Global,
    entry: TestEntry,
) -> Result<ProvisionalCacheEntry<X>, NoMemory> {
    let mut heads = CycleHeads::new(alloc);
    let depth = StackDepth::new(entry.head.min(1));
    heads.insert(depth, PathsToNested::COINDUCTIVE, usages_of(entry.counts))?;
    Ok(ProvisionalCacheEntry {
        encountered_overflow: entry.encountered_overflow,
        heads,
        path_from_head: entry.path_from_head,
        result: entry.result,
        node: entry.node(),
    })
}

/// A cache with these entries of a goal, in order.
pub fn cache_of<X: Cx<Result = Outcome>, D: Delegate<Cx = X>>(
    alloc: Global,
    goal: X::Input,
    entries: &[TestEntry],
) -> Result<ProvisionalCache<D>, NoMemory> {
    let mut cache = ProvisionalCache::<D>::new(alloc);
    for entry in entries {
        cache.push(goal, entry_of(alloc, *entry)?)?;
    }
    Ok(cache)
}

/// The entries of a goal, in order: the result, the node, the kind of the path from the highest head, and the heads.
pub fn tell_entries<X: Cx<Result = Outcome>, D: Delegate<Cx = X>>(
    told: &mut Told,
    goal: X::Input,
    cache: &ProvisionalCache<D>,
) {
    if cache.is_empty() {
        told.say("empty");
    }
    let mut separator = "";
    for entry in cache.entries_of(goal) {
        told.say(separator);
        tell_entry(told, entry);
        separator = ", ";
    }
}

fn tell_entry<X: Cx<Result = Outcome>>(told: &mut Told, entry: &ProvisionalCacheEntry<X>) {
    told.outcome("", entry.result);
    if let Some(NodeId(number)) = entry.node {
        told.number(" ", number);
    }
    if entry.encountered_overflow {
        told.say(" and more");
    }
    told.kind(" over ", entry.path_from_head);
    told.say(" from");
    for (depth, head) in entry.heads.as_slice() {
        told.number(" ", depth.index());
        told.head(" ", *head);
    }
}
