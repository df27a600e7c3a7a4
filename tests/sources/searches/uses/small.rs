//! All texts of two types with small right sides.

use crate::searches::uses::agreed::agreed;
use std::alloc::Global;
use std::io::Write;
use std::process::Abort;
use std::test::Fail;
use type_texts::{ReadFault, TypeTable};

/// The small right sides over two types.
const SIDES: [&str; 35] = [
    "base x",
    "base y",
    "top",
    "bottom",
    "A -> A",
    "A -> B",
    "B -> A",
    "B -> B",
    "{ }",
    "{ x: A }",
    "{ x: B }",
    "{ y: A }",
    "{ y: B }",
    "{ z: B }",
    "{ x: A y: A }",
    "{ x: A y: B }",
    "{ x: B y: A }",
    "{ x: B y: B }",
    "{ y: A x: A }",
    "{ y: A x: B }",
    "{ y: B x: A }",
    "{ y: B x: B }",
    "{ x: A z: B }",
    "A | A",
    "A | B",
    "B | A",
    "B | B",
    "A | A | A",
    "A | A | B",
    "A | B | A",
    "A | B | B",
    "B | A | A",
    "B | A | B",
    "B | B | A",
    "B | B | B",
];

/// What the texts with one first type came to.
#[derive(Clone, Copy, Debug, Default)]
struct Tally {
    answered: u32,
    // How many pairs were below.
    below: usize,
    // How many texts have a union of itself.
    unguarded: u32,
}

#[test]
fn all_small_texts_are_answered_plainly(rt: HostRuntime) -> Result<(), Fail> {
    let mut tally = Tally::default();
    for first in SIDES {
        try_texts(rt.alloc(), first, &mut tally)?;
    }
    expect_tally(&rt, tally);
    Ok(())
}

fn expect_tally(rt: &impl Abort, tally: Tally) {
    // ten right sides of A are unions with A, ten of B such with B, and twice two are unions of the other one alone
    assert_eq!(rt; tally.unguarded, 35 * 10 + 25 * 10 + 2 * 2);
    assert_eq!(rt; tally.answered, 35 * 35 - 604);
    assert!(rt; tally.below > 2 * 621 && tally.below < 4 * 621, "{tally:?}");
}

fn try_texts(alloc: Global, first: &str, tally: &mut Tally) -> Result<(), Fail> {
    for second in SIDES {
        try_text(alloc, first, second, tally)?;
    }
    Ok(())
}

fn try_text(alloc: Global, first: &str, second: &str, tally: &mut Tally) -> Result<(), Fail> {
    let mut text = Vec::new(alloc);
    write!(text, "type A = {first}\ntype B = {second}\n")?;
    let leads_back = names_within(first, "A")
        || names_within(second, "B")
        || names_within(first, "B") && names_within(second, "A");
    match below_in(alloc, text.as_slice())? {
        None if leads_back => tally.unguarded = tally.unguarded.saturating_add(1),
        Some(below) if !leads_back => {
            tally.below = tally.below.saturating_add(below);
            tally.answered = tally.answered.saturating_add(1);
        }
        _ => return Err("read otherwise")?,
    }
    Ok(())
}

/// How many pairs of the text's types are below. Nothing is said of a text that has a union of itself.
fn below_in(alloc: Global, text: &[u8]) -> Result<Option<usize>, Fail> {
    match TypeTable::read(alloc, text) {
        Ok(table) => Ok(Some(agreed(alloc, table.types(), table.count())?.count())),
        Err(ReadFault::Unguarded(_)) => Ok(None),
        Err(fault) => Err(fault)?,
    }
}

/// Whether the right side is a union with an alternative of this name.
fn names_within(side: &str, name: &str) -> bool {
    side.contains('|') && side.contains(name)
}
