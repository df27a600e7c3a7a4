//! Towers of types, whose pairs are asked twice on each storey: what the provisional cache saves.

use delegate_parts::{Builder, Outcome};
use question_lists::{ContextOf, Listed, ListsContext, ListsDelegate};
use search_graph::graph::SearchGraph;
use search_parts::context::{Cx, Delegate, Verdict};
use search_parts::global_cache::GlobalCache;
use search_parts::path::PathKind;
use std::alloc::Global;
use std::io::Write;
use std::process::Abort;
use std::test::Fail;
use structural_types::{Pair, PairsOf, Types};
use type_texts::TypeTable;

/// What stands below the last storeys of both towers.
type Ground = [&'static str; 2];

/// The same base type.
const BASE: Ground = ["base y", "base y"];

/// Functions whose results are the first types of the towers again.
const CYCLE: Ground = ["X -> a0", "X -> b0"];

/// On what towers of how many storeys stand, and how many runs it takes to find the first one below the second: with the
/// provisional cache, and without it where that is tried.
const TOWERS: [(Ground, usize, u64, Option<u64>); 11] = [
    // Without cycles it takes as many runs as pairs: answers that rest on nothing above are stored at once.
    (BASE, 1, 2, Some(2)),
    (BASE, 2, 3, Some(3)),
    (BASE, 5, 6, Some(6)),
    (BASE, 10, 11, Some(11)),
    (BASE, 100, 101, Some(101)),
    // In a cycle no answer is stored before the first one's, and the provisional cache saves the second question of each
    // storey.
    (CYCLE, 1, 3, Some(4)),
    (CYCLE, 2, 4, Some(8)),
    (CYCLE, 3, 5, Some(16)),
    (CYCLE, 4, 6, Some(32)),
    (CYCLE, 10, 12, Some(2048)),
    (CYCLE, 100, 102, None),
];

#[test]
fn towers_take_so_many_runs(rt: HostRuntime) -> Result<(), Fail> {
    for (ground, storeys, with, without) in TOWERS {
        let runs = runs_on(rt.alloc(), ground, storeys, without.is_some())?;
        assert_eq!(rt; runs, (with, without), "{storeys} storeys on {ground:?}");
    }
    Ok(())
}

fn runs_on(
    alloc: Global,
    ground: Ground,
    storeys: usize,
    is_tried_without: bool,
) -> Result<(u64, Option<u64>), Fail> {
    let table = towers(alloc, storeys, ground)?;
    runs_of_towers(alloc, &table, is_tried_without)
}

/// Two towers of so many storeys.
fn towers(alloc: Global, storeys: usize, ground: Ground) -> Result<TypeTable, Fail> {
    let [first, second] = ground;
    let mut text = Vec::new(alloc);
    write_tower(&mut text, "a", storeys, first)?;
    write_tower(&mut text, "b", storeys, second)?;
    write!(text, "type X = base X\nask a0 < b0\n")?;
    Ok(TypeTable::read(alloc, text.as_slice())?)
}

/// Declares records on so many storeys, each with the next one twice, and below them the last type.
fn write_tower(text: &mut Vec<u8>, name: &str, storeys: usize, last: &str) -> Result<(), Fail> {
    for number in 0..storeys {
        let next = number.saturating_add(1);
        write!(
            text,
            "type {name}{number} = {{ l: {name}{next} r: {name}{next} }}\n"
        )?;
    }
    write!(text, "type {name}{storeys} = {last}\n")?;
    Ok(())
}

/// How many runs the question of the table takes with the provisional cache, and without it if that is tried.
fn runs_of_towers(
    alloc: Global,
    table: &TypeTable,
    is_tried_without: bool,
) -> Result<(u64, Option<u64>), Fail> {
    let pair = *table.questions().first().ok_or("no question")?;
    let types = table.types();
    let with = runs_of_types::<1>(alloc, types, pair)?;
    if !is_tried_without {
        return Ok((with, None));
    }
    let without = runs_of_types::<0>(alloc, types, pair)?;
    Ok((with, Some(without)))
}

fn runs_of_types<const PROVISIONAL: usize>(
    alloc: Global,
    types: &Types,
    pair: Pair,
) -> Result<u64, Fail> {
    let context = ContextOf(Listed(PairsOf { lender: types }));
    runs_of_yes::<ListsContext<PairsOf<&Types>>, ListsDelegate<PairsOf<&Types>, 8, PROVISIONAL>>(
        alloc, context, pair,
    )
}

/// How many runs are started until the pair is answered yes.
fn runs_of_yes<X, D>(alloc: Global, cx: X, pair: Pair) -> Result<u64, Fail>
where
    X: Cx<Input = Pair, Result = Outcome>,
    D: Delegate<Cx = X, ProofTreeBuilder = Builder>,
{
    let mut cache = GlobalCache::<D>::new(alloc, cx);
    let mut graph = SearchGraph::<D>::new(alloc, 1000);
    let mut builder = Builder::new(true);
    let answer = graph.evaluate_goal(&mut cache, pair, PathKind::Coinductive, &mut builder)?;
    if answer.result.verdict() != Verdict::Yes {
        return Err("another answer than yes")?;
    }
    Ok(builder.started())
}
