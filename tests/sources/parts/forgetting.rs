//! Random histories of a list of nodes, beside a plain list: nodes are pushed and finished, goals are forgotten, and nodes are
//! let go to which nothing leads. The goals are few at first, so that each has many nodes, and then many.

use crate::chance::Chance;
use delegate_parts::Outcome;
use graph_nodes::node_list::NodeList;
use path_kinds::path::PathKind;
use search_context::context::{Edge, NoMemory, NodeId};
use std::alloc::Global;
use std::collections::HashSet;
use std::test::Fail;

/// How many steps a history has.
const STEPS: usize = 120;

/// How many histories there are.
const HISTORIES: u64 = 6;

/// A node as it should be. Where it leads to a node, that has a smaller number.
#[derive(Clone, Copy, PartialEq, Eq)]
enum Plain {
    Gone,
    Open(u32),
    Finished(u32, Option<usize>),
}

/// The list, and what should be in it.
#[derive(Drop)]
struct Both {
    list: NodeList<u32, Outcome>,
    plain: Vec<Plain>,
}

#[test]
fn forgotten_nodes_are_gone_at_once(rt: HostRuntime) -> Result<(), Fail> {
    for seed in 0..HISTORIES {
        let mut both = Both {
            list: NodeList::new(rt.alloc()),
            plain: Vec::new(rt.alloc()),
        };
        let mut chance = Chance::new(seed);
        let goals = if seed % 2 == 0 { 40 } else { 4000 };
        for step in 0..STEPS {
            take_step(rt.alloc(), &mut both, &mut chance, goals)?;
            assert!(rt;
                step % 3 != 0 || is_alike(&both, step % 9 == 0),
                "history {seed}, step {step}"
            );
        }
    }
    Ok(())
}

fn take_step(
    alloc: Global,
    both: &mut Both,
    chance: &mut Chance,
    goals: usize,
) -> Result<(), NoMemory> {
    match chance.below(20) {
        0..=9 => push_some(both, chance, goals),
        10..=14 => finish_some(alloc, both, chance),
        15 => collect_some(alloc, both, chance),
        16 if chance.once_in(20) => {
            both.list.clear();
            both.plain.clear();
            Ok(())
        }
        _ => forget_some(alloc, both, chance, goals),
    }
}

/// Many at first, then few, so that what is forgotten is but noted.
fn push_some(both: &mut Both, chance: &mut Chance, goals: usize) -> Result<(), NoMemory> {
    let few = both.plain.len() > 700;
    for _ in 0..chance.below(if few { 8 } else { 400 }) {
        let goal = chance.below(goals) as u32;
        both.list.push(goal)?;
        both.plain.push(Plain::Open(goal))?;
    }
    Ok(())
}

fn finish_some(alloc: Global, both: &mut Both, chance: &mut Chance) -> Result<(), NoMemory> {
    for _ in 0..chance.below(200) {
        let number = chance.below(both.plain.len());
        if !both.list.is_open(number) {
            continue;
        }
        let Some(Plain::Open(goal)) = both.plain.get(number).copied() else {
            continue;
        };
        let target = chance.once_in(3).then_some(chance.below(number));
        let mut edges = Vec::new(alloc);
        if let Some(target) = target {
            edges.push(Edge {
                kind: PathKind::Inductive,
                input: 0,
                target,
            })?;
        }
        both.list
            .finish(number, Vec::new(alloc), edges, Outcome::Yes);
        both.plain[number] = Plain::Finished(goal, target);
    }
    Ok(())
}

fn forget_some(
    alloc: Global,
    both: &mut Both,
    chance: &mut Chance,
    goals: usize,
) -> Result<(), NoMemory> {
    let mut gone = HashSet::new(alloc);
    for _ in 0..chance.below(6) {
        gone.insert(chance.below(goals) as u32)?;
    }
    both.list.forget(&gone);
    for node in &mut both.plain {
        let goal = match node {
            Plain::Gone => continue,
            Plain::Open(goal) => *goal,
            Plain::Finished(goal, _) => *goal,
        };
        if gone.contains(&goal) {
            *node = Plain::Gone;
        }
    }
    Ok(())
}

/// Lets go of newest nodes, but for one and what that leads to. At times these are all nodes.
fn collect_some(alloc: Global, both: &mut Both, chance: &mut Chance) -> Result<(), NoMemory> {
    let count = both.plain.len();
    let newest = if chance.once_in(4) { count } else { 12 };
    let first = count.saturating_sub(chance.below(newest + 1));
    // No edge leads from an earlier node to one from there on: each leads to a smaller number.
    let root = first + chance.below(count - first);
    let mut live = Vec::from_elem(alloc, false, count)?;
    let mut next = Some(root);
    while let Some(number) = next {
        next = None;
        if let Some(is_live) = live.as_mut_slice().get_mut(number) {
            *is_live = true;
            if let Plain::Finished(_, target) = both.plain[number] {
                next = target;
            }
        }
    }
    both.list.collect(first, &[], Some(NodeId(root)))?;
    for number in first..count {
        if !live[number] {
            both.plain[number] = Plain::Gone;
        }
    }
    Ok(())
}

/// Whether the list has what it should have. Where not `whole`, the number of nodes is not compared.
fn is_alike(both: &Both, whole: bool) -> bool {
    let mut held = 0;
    for number in 0..both.plain.len() {
        let node = both.plain[number];
        let found = match both.list.finished(number) {
            Some(node) => Plain::Finished(node.input, node.edges.first().map(|edge| edge.target)),
            None if both.list.is_open(number) => match node {
                Plain::Open(goal) => Plain::Open(goal),
                _ => return false,
            },
            None => Plain::Gone,
        };
        if found != node {
            return false;
        }
        if node != Plain::Gone {
            held += 1;
        }
    }
    let next = both.list.next_number();
    let in_memory = both.list.count_in_memory();
    next == both.plain.len() && held <= in_memory && (!whole || both.list.held_count() == held)
}
