//! Proof trees that are recorded.

use delegate_parts::{Builder, Outcome};
use proof_trees::{Recorder, Recording, write_entries};
use rule_tables::{Goal, Rules};
use search_graph::graph::SearchGraph;
use search_parts::context::{Cx, Delegate};
use search_parts::global_cache::GlobalCache;
use std::alloc::Global;
use std::io::Write;
use std::test::Fail;
use table_words::TableWords;

/// What is recorded of goals of a table.
type TableRecorder = Recorder<Builder, Goal, Outcome>;

/// Works the goal out for a proof tree, over a cache of its own, with a recorder that records or not.
fn record<X, D>(
    alloc: Global,
    cx: X,
    depth: usize,
    goal: Goal,
    is_recording: bool,
) -> Result<TableRecorder, Fail>
where
    X: Cx<Input = Goal, Result = Outcome>,
    D: Delegate<Cx = X, ProofTreeBuilder = Builder>,
{
    let mut cache = GlobalCache::<Recording<D>>::new(alloc, cx);
    let mut recorder = Recorder::new(alloc, Builder::new(true), is_recording);
    let _answer = SearchGraph::<Recording<D>>::evaluate_root_goal_for_proof_tree(
        &mut cache,
        depth,
        goal,
        &mut recorder,
    )?;
    Ok(recorder)
}

/// The goal's tree at this depth, without the end of its last line.
pub fn write_tree<X, D>(
    alloc: Global,
    lines: &mut Vec<u8>,
    cx: X,
    rules: &Rules,
    depth: usize,
    goal: Goal,
) -> Result<(), Fail>
where
    X: Cx<Input = Goal, Result = Outcome>,
    D: Delegate<Cx = X, ProofTreeBuilder = Builder>,
{
    let recorder = record::<X, D>(alloc, cx, depth, goal, true)?;
    write!(lines, "\ntree\n")?;
    write_entries(lines, &TableWords { rules }, recorder.entries())?;
    let _newline = lines.pop();
    Ok(())
}

/// How much is recorded of the goal: how many frames were started, and how many entries and lines its tree has.
pub fn write_record<X, D>(
    alloc: Global,
    lines: &mut Vec<u8>,
    cx: X,
    rules: &Rules,
    depth: usize,
    goal: Goal,
    is_recording: bool,
) -> Result<(), Fail>
where
    X: Cx<Input = Goal, Result = Outcome>,
    D: Delegate<Cx = X, ProofTreeBuilder = Builder>,
{
    let recorder = record::<X, D>(alloc, cx, depth, goal, is_recording)?;
    write_size(lines, rules, &recorder)
}

fn write_size(lines: &mut Vec<u8>, rules: &Rules, recorder: &TableRecorder) -> Result<(), Fail> {
    let mut text = Vec::new(*lines.allocator());
    write_entries(&mut text, &TableWords { rules }, recorder.entries())?;
    let line_count = text.iter().filter(|byte| **byte == b'\n').count();
    let word = if recorder.is_recording() {
        "recorded"
    } else {
        "unrecorded"
    };
    let started = recorder.inner().started();
    let entry_count = recorder.entries().len();
    write!(
        lines,
        "\n{word}\n{started} frames {entry_count} entries {line_count} lines"
    )?;
    Ok(())
}
