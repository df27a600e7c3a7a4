//! Tests of the search, by the runs of the text `runs`: what the search answers is compared with what stands in them.
//!
//! A run ends with an empty line. It begins with a line that has its sort, its name and its options, and its answers follow a
//! line `expect 0`. The sorts are:
//!
//! | Sort | The run |
//! |---|---|
//! | `case` | a table of rules, with the options of the search (`cases`). The first are worked out by hand, each named for what it shows. The others are runs of rustc's own search graph at other limits of runs, with the provisional cache and without it: their tables are those of a random generator, and each is answered otherwise at another of these limits, or at the other setting of the provisional cache |
//! | `chain` | the same of a chain of many goals, of which the run has the length, and the depth at which the first is asked |
//! | `scripts` | requests in any order (`scripts`) |
//! | `switches` | a table in which one goal needs as many runs as one likes, by rules whose scripts stop early (`switches`) |
//! | `pairs` | tables of two goals that ask two questions each, as many as are wanted of all of them (`pairs`) |
//! | `graph` | a graph made by hand, for the plain check of those (`flaws`) |
//! | `drawn` | tables drawn at random, beside a solver that works out from the definition alone which goals have a proof graph (`decided`) |

mod asked;
mod cases;
mod decided;
mod drawing;
mod flaws;
mod idle;
mod letters;
mod lists;
mod pairs;
mod plain_graph;
mod random_tables;
mod run;
mod runs;
mod scripts;
mod solved;
mod switches;
mod trees;

use run::Run;
use runs::RUNS;
use std::alloc::Global;
use std::process::Abort;
use std::test::Fail;

/// Each run comes to what stands in it. What any other comes to is printed.
#[test]
fn runs_are_answered_as_they_say(rt: HostRuntime) -> Result<(), Fail> {
    let mut passed = 0u32;
    let mut failed = 0u32;
    for it in RUNS.trim().split("\n\n") {
        if is_answered(&rt, it)? {
            passed = passed.saturating_add(1);
        } else {
            failed = failed.saturating_add(1);
        }
    }
    println!(rt; "{passed} runs passed, {failed} failed")?;
    assert!(rt; failed == 0 && passed > 0, "a run is answered otherwise");
    Ok(())
}

/// Whether the run comes to what stands in it.
fn is_answered(rt: &(impl AllocGlobal + Print), text: &str) -> Result<bool, Fail> {
    let run = Run::read(text)?;
    let told = tell(rt.alloc(), run)?;
    if told.as_slice() == run.wanted.as_bytes() {
        return Ok(true);
    }
    let told = std::str::from_utf8(told.as_slice()).unwrap_or("no text");
    println!(rt; "failed: {text}\nand it came to\n{told}\n")?;
    Ok(false)
}

/// What the run comes to.
fn tell(alloc: Global, run: Run<'_>) -> Result<Vec<u8>, Fail> {
    match run.sort {
        "case" => cases::tell(alloc, run.options, run.input.as_bytes(), run.wanted),
        "chain" => cases::tell_chain(alloc, run.options, run.input, run.wanted),
        "scripts" => scripts::tell(alloc, run.options, run.input),
        "switches" => switches::tell(alloc, run.options),
        "pairs" => pairs::tell(alloc, run.options),
        "graph" => flaws::tell(alloc, run.input),
        "drawn" => decided::tell(alloc, run.options),
        _ => Err("a run of another sort")?,
    }
}
