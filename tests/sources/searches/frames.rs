//! Tests of frames that are refused memory, by each call of a frame in turn.

use crate::searches::asking::ask;
use crate::searches::handed_out::{Nodes, graph_for};
use crate::searches::stored::tell_stored;
use delegate_parts::{Builder, Outcome};
use graph_check::check_graph;
use rule_tables::delegate::Table;
use rule_tables::{Goal, Rules, TableDelegate};
use search_parts::context::{Cx, Delegate, NoMemory, ProofGraph, Verdict};
use search_parts::global_cache::GlobalCache;
use std::alloc::Global;
use std::io::Write;
use std::test::Fail;
use test_delegates::refusing::{Refusals, Refusing};

const CIRCLE: &str = "rule A = i:B\nrule B = c:A\n";

const CHAIN: &str = "rule A = i:B\nrule B = i:C\nrule C =\n";

const LOOP: &str = "rule A = i:A\n";

/// A table, the depth at which A is asked, the first and the last of some calls, and what A comes to where one of these is
/// refused, which goals are stored then, and what A comes to when it is asked again. The number is that of the frames that
/// this starts.
const ROWS: [(&str, usize, u64, u64, &str); 8] = [
    (CIRCLE, 4, 1, 10, "out of memory, stored:, again: yes 2"),
    (CIRCLE, 4, 11, 12, "yes, stored: A yes 2, again: yes 0"),
    (CHAIN, 2, 1, 10, "out of memory, stored:, again: yes 3"),
    (
        CHAIN,
        2,
        11,
        12,
        "out of memory, stored: C yes 0, again: yes 2",
    ),
    (
        CHAIN,
        2,
        13,
        14,
        "out of memory, stored: B yes 1 C yes 0, again: yes 1",
    ),
    (
        CHAIN,
        2,
        15,
        16,
        "yes, stored: A yes 2 B yes 1 C yes 0, again: yes 0",
    ),
    (LOOP, 4, 1, 5, "out of memory, stored:, again: no 1"),
    (LOOP, 4, 6, 7, "no, stored: A no 1, again: no 0"),
];

#[test]
fn a_frame_that_is_refused_memory_ends_the_call(rt: HostRuntime) -> Result<(), Fail> {
    for (text, depth, from, to, wanted) in ROWS {
        for call in from..=to {
            let told = tell(rt.alloc(), text, depth, call)?;
            assert_eq!(rt; told.as_slice(), wanted.as_bytes(), "call {call} of {text}");
        }
    }
    Ok(())
}

/// What A comes to where this call of its frames and those below is refused memory.
fn tell(alloc: Global, text: &str, depth: usize, call: u64) -> Result<Vec<u8>, Fail> {
    let rules = Rules::read(alloc, text.as_bytes())?;
    let mut told = Vec::new(alloc);
    tell_at_table(alloc, &rules, depth, call, &mut told)?;
    Ok(told)
}

fn tell_at_table(
    alloc: Global,
    rules: &Rules,
    depth: usize,
    call: u64,
    told: &mut Vec<u8>,
) -> Result<(), Fail> {
    let cx = Table { lender: rules };
    tell_with::<Table<&Rules>, TableDelegate<'_, 8, 1>>(alloc, cx, rules, depth, call, told)
}

fn tell_with<X, D>(
    alloc: Global,
    cx: X,
    rules: &Rules,
    depth: usize,
    call: u64,
    told: &mut Vec<u8>,
) -> Result<(), Fail>
where
    X: Cx<Input = Goal, Result = Outcome>,
    D: Delegate<Cx = X, ProofTreeBuilder = Builder>,
{
    let mut cache = GlobalCache::<Refusing<D>>::new(alloc, cx);
    tell_over::<X, D>(alloc, &mut cache, rules, depth, call, told)
}

fn tell_over<X, D>(
    alloc: Global,
    cache: &mut GlobalCache<Refusing<D>>,
    rules: &Rules,
    depth: usize,
    call: u64,
    told: &mut Vec<u8>,
) -> Result<(), Fail>
where
    X: Cx<Input = Goal, Result = Outcome>,
    D: Delegate<Cx = X, ProofTreeBuilder = Builder>,
{
    let goal = rules.goal(b"A").ok_or("no goal")?;
    let _ = tell_answer::<X, D>(alloc, cache, depth, goal, call, told)?;
    tell_stored::<X, Refusing<D>>(cache, rules, told)?;
    tell_again::<X, D>(alloc, cache, depth, goal, told)
}

/// Tells what the goal comes to when no call is refused, and how many frames that starts.
fn tell_again<X, D>(
    alloc: Global,
    cache: &mut GlobalCache<Refusing<D>>,
    depth: usize,
    goal: Goal,
    told: &mut Vec<u8>,
) -> Result<(), Fail>
where
    X: Cx<Input = Goal, Result = Outcome>,
    D: Delegate<Cx = X, ProofTreeBuilder = Builder>,
{
    told.write_all(b", again: ")?;
    let started = tell_answer::<X, D>(alloc, cache, depth, goal, 0, told)?;
    write!(told, " {started}")?;
    Ok(())
}

/// Tells what the goal comes to where this call is refused, and says how many frames that starts.
fn tell_answer<X, D>(
    alloc: Global,
    cache: &mut GlobalCache<Refusing<D>>,
    depth: usize,
    goal: Goal,
    call: u64,
    told: &mut Vec<u8>,
) -> Result<u64, Fail>
where
    X: Cx<Input = Goal, Result = Outcome>,
    D: Delegate<Cx = X, ProofTreeBuilder = Builder>,
{
    let mut refusals = Refusals {
        builder: Builder::new(true),
        call,
    };
    let (answer, _) = ask::<X, Refusing<D>>(alloc, cache, depth, goal, &mut refusals)?;
    match answer {
        Ok(answer) => {
            let outcome = answer.result;
            write!(told, "{outcome}")?;
        }
        Err(fault) => write!(told, "{fault}")?,
    }
    Ok(refusals.builder.started())
}

#[test]
fn each_call_of_the_replay_may_be_refused(rt: HostRuntime) -> Result<(), Fail> {
    for (text, wanted) in [
        // Two goals with one candidate of one question: each frame is started once, and stepped four times.
        (CIRCLE, 10),
        // The last goal has no question.
        (CHAIN, 14),
        // The replay of an ignored candidate has a reply more.
        ("rule ~A = i:A\nrule A =\n", 8),
    ] {
        let calls = calls_of_the_check(rt.alloc(), text)?;
        assert_eq!(rt; calls, wanted, "calls of {text}");
    }
    Ok(())
}

/// How many calls of frames the check of A's graph makes. Each of them is refused in turn, which the check has to say.
fn calls_of_the_check(alloc: Global, text: &str) -> Result<u64, Fail> {
    let rules = Rules::read(alloc, text.as_bytes())?;
    let goal = rules.goal(b"A").ok_or("no goal")?;
    let graph = graph_for(alloc, &rules, 4, goal)?;
    let verdict = graph.outcome.verdict();
    refused_at_table(alloc, &rules, graph.nodes, goal, verdict)
}

fn refused_at_table(
    alloc: Global,
    rules: &Rules,
    nodes: Nodes,
    goal: Goal,
    verdict: Verdict,
) -> Result<u64, Fail> {
    let cx = Table { lender: rules };
    refused_checks::<Table<&Rules>, TableDelegate<'_, 8, 1>>(alloc, cx, nodes, goal, verdict)
}

fn refused_checks<X, D>(
    alloc: Global,
    cx: X,
    nodes: Nodes,
    goal: Goal,
    verdict: Verdict,
) -> Result<u64, Fail>
where
    X: Cx<Input = Goal, Result = Outcome>,
    D: Delegate<Cx = X, ProofTreeBuilder = Builder>,
{
    let graph: ProofGraph<X> = ProofGraph { nodes };
    for call in 1..100u64 {
        let mut refusals = Refusals {
            builder: Builder::new(true),
            call,
        };
        match check_graph::<Refusing<D>>(alloc, cx, &graph, goal, verdict, &mut refusals) {
            Err(NoMemory) => {}
            Ok(true) => return Ok(call.saturating_sub(1)),
            Ok(false) => return Err("the checker refuses the graph")?,
        }
    }
    Err("each check is refused")?
}
