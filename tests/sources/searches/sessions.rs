//! Sessions: rules in arrays are asked one by one, and their graphs are handed out as words and checked.

use rule_arrays::{Arrays, CandidateRow, GoalRow, LendsArrays, NOT_KNOWN, QuestionRow, TableRows};
use rule_tables::Rules;
use search_context::context::{NodeId, Verdict};
use search_context::path::PathKind;
use sessions::{Asked, Cause, Caused, Cut, Outcome, Reason, Session};
use std::alloc::Global;
use std::process::Abort;
use std::test::Fail;

/// More than any of these goals needs.
const DEPTH: usize = 100;

/// Goal 0 asks 1 by an inductive step, and 1 asks 0 by a coinductive one. Goal 2 asks itself by an inductive step. Goal 3 asks 4,
/// of which nothing is known, as of 5, which nothing asks. Goal 6 asks nothing.
const GOALS: &[GoalRow] = &[
    GoalRow { first: 0, count: 1 },
    GoalRow { first: 1, count: 1 },
    GoalRow { first: 2, count: 1 },
    GoalRow { first: 3, count: 1 },
    GoalRow {
        first: 9,
        count: NOT_KNOWN,
    },
    GoalRow {
        first: 9,
        count: NOT_KNOWN,
    },
    GoalRow { first: 4, count: 1 },
];

const CANDIDATES: &[CandidateRow] = &[
    CandidateRow {
        first: 0,
        count: 1,
        is_marked: 0,
    },
    CandidateRow {
        first: 1,
        count: 1,
        is_marked: 0,
    },
    CandidateRow {
        first: 2,
        count: 1,
        is_marked: 0,
    },
    CandidateRow {
        first: 3,
        count: 1,
        is_marked: 0,
    },
    CandidateRow {
        first: 4,
        count: 0,
        is_marked: 0,
    },
];

const QUESTIONS: &[QuestionRow] = &[
    QuestionRow { kind: 0, goal: 1 },
    QuestionRow { kind: 2, goal: 0 },
    QuestionRow { kind: 0, goal: 2 },
    QuestionRow { kind: 0, goal: 4 },
];

const ARRAYS: Arrays<'static> = Arrays {
    goals: GOALS,
    candidates: CANDIDATES,
    questions: QUESTIONS,
};

/// The graph of goal 0.
const WORDS: &[u64] = &[
    0, 0, 4, 5, 4, 0, 4, 1, 0, 1, // it rests on node 1, by an inductive step
    1, 0, 4, 5, 4, 0, 4, 1, 2, 0, // and that on node 0, by a coinductive one
];

#[test]
fn answers_have_their_graphs(rt: HostRuntime) -> Result<(), Fail> {
    have_their_graphs::<Arrays<'_>, HostRuntime>(&rt, rt.alloc(), ARRAYS)
}

fn have_their_graphs<L: LendsArrays, R: Abort>(
    rt: &R,
    alloc: Global,
    lender: L,
) -> Result<(), Fail> {
    let mut session = Session::new(alloc, lender);
    let yes = session.ask(DEPTH, 0)?;
    assert!(rt; yes.outcome == Outcome::Yes && yes.started == 2 && !yes.limits_met);
    let words = words_of(&session, yes)?;
    assert!(rt; words.as_slice() == WORDS);
    assert!(rt; session.check(0, Verdict::Yes, WORDS)?);
    assert!(rt;
        !session.check(0, Verdict::No, WORDS)? && !session.check(0, Verdict::Neither, WORDS)?
    );
    assert!(rt; !session.check(1, Verdict::Yes, WORDS)?);

    let no = session.ask(DEPTH, 2)?;
    assert!(rt; no.outcome == Outcome::No);
    let words = words_of(&session, no)?;
    assert!(rt; session.check(2, Verdict::No, words.as_slice())?);
    assert!(rt; !session.check(2, Verdict::Yes, words.as_slice())?);

    // The first one is still there, and costs nothing.
    let again = session.ask(DEPTH, 0)?;
    assert!(rt; again.node == yes.node && again.started == 0);
    assert!(rt; words_of(&session, again)?.as_slice() == WORDS);
    assert!(rt; session.graph_words(NodeId(99))?.is_none());
    assert!(rt; session.held_nodes() == 3 && session.last_fault().is_none());
    Ok(())
}

fn words_of<L: LendsArrays>(session: &Session<L>, asked: Asked) -> Result<Vec<u64>, Fail> {
    let Some(node) = asked.node else {
        return Err("it has no node".into());
    };
    match session.graph_words(node)? {
        Some(words) => Ok(words),
        None => Err("it has no graph".into()),
    }
}

#[test]
fn changed_words_are_refused(rt: HostRuntime) -> Result<(), Fail> {
    are_refused::<Arrays<'_>, HostRuntime>(&rt, rt.alloc(), ARRAYS)
}

fn are_refused<L: LendsArrays, R: Abort>(rt: &R, alloc: Global, lender: L) -> Result<(), Fail> {
    let session = Session::new(alloc, lender);
    for place in 0..WORDS.len() {
        for other in [0, 1, 2, 3, 4, 5, 6, 1 << 32, u64::MAX] {
            let mut words = Vec::new(alloc);
            words.extend_from_slice(WORDS)?;
            words.as_mut_slice()[place] = other;
            let is_same = words.as_slice() == WORDS;
            assert!(rt;
                session.check(0, Verdict::Yes, words.as_slice())? == is_same,
                "{other} at {place}"
            );
        }
        assert!(rt;
            !session.check(0, Verdict::Yes, &WORDS[..place])?,
            "{place} words"
        );
    }
    Ok(())
}

#[test]
fn unknown_goals_are_wanted(rt: HostRuntime) -> Result<(), Fail> {
    are_wanted::<Arrays<'_>, HostRuntime>(&rt, rt.alloc(), ARRAYS)
}

fn are_wanted<L: LendsArrays, R: Abort>(rt: &R, alloc: Global, lender: L) -> Result<(), Fail> {
    let mut session = Session::new(alloc, lender);
    assert!(rt; session.ask(DEPTH, 6)?.outcome == Outcome::Yes);
    assert!(rt; session.ask(DEPTH, 7)?.outcome == Outcome::No); // there is none
    assert!(rt; session.wanted()?.is_empty());
    let maybe = session.ask(DEPTH, 3)?;
    assert!(rt; maybe.outcome == Outcome::Maybe && maybe.node.is_none());
    assert!(rt; session.wanted()?.as_slice() == [4].as_slice());

    // One that has no depth left is wanted, too.
    let mut short = Session::new(alloc, lender);
    assert!(rt; short.ask(1, 3)?.limits_met);
    assert!(rt; short.wanted()?.as_slice() == [4].as_slice());
    Ok(())
}

/// Goal 0 asks itself by an inductive step. There is no other one.
const ALONE: Arrays<'static> = Arrays {
    goals: &[GoalRow { first: 0, count: 1 }],
    candidates: &[CandidateRow {
        first: 0,
        count: 1,
        is_marked: 0,
    }],
    questions: &[QuestionRow { kind: 0, goal: 0 }],
};

#[test]
fn a_renewed_session_is_as_a_new_one(rt: HostRuntime) -> Result<(), Fail> {
    is_as_new::<Arrays<'_>, HostRuntime>(&rt, rt.alloc(), ARRAYS, ALONE)
}

fn is_as_new<L: LendsArrays, R: Abort>(
    rt: &R,
    alloc: Global,
    lender: L,
    other: L,
) -> Result<(), Fail> {
    let mut session = Session::new(alloc, lender);
    assert!(rt; session.ask(DEPTH, 3)?.outcome == Outcome::Maybe);
    for _turn in 0..3u32 {
        let yes = session.ask(DEPTH, 0)?;
        assert!(rt; yes.outcome == Outcome::Yes && yes.started == 2);
        assert!(rt; words_of(&session, yes)?.as_slice() == WORDS);
        session.renew(other);
        assert!(rt; session.held_nodes() == 0 && session.wanted()?.is_empty());
        let no = session.ask(DEPTH, 0)?;
        assert!(rt; no.outcome == Outcome::No && no.started == 1);
        assert!(rt; no.node == Some(NodeId(0)) && session.held_nodes() == 1);
        assert!(rt; session.ask(DEPTH, 3)?.outcome == Outcome::No); // there is none
        session.renew(lender);
    }
    assert!(rt; session.held_nodes() == 0 && session.last_fault().is_none());
    Ok(())
}

/// The same rules as `ARRAYS`, but that goal 4 is known, and asks nothing.
const KNOWN: Arrays<'static> = Arrays {
    goals: &[
        GoalRow { first: 0, count: 1 },
        GoalRow { first: 1, count: 1 },
        GoalRow { first: 2, count: 1 },
        GoalRow { first: 3, count: 1 },
        GoalRow { first: 4, count: 1 },
        GoalRow {
            first: 9,
            count: NOT_KNOWN,
        },
        GoalRow { first: 4, count: 1 },
    ],
    candidates: CANDIDATES,
    questions: QUESTIONS,
};

#[test]
fn a_session_keeps_what_a_change_does_not_concern(rt: HostRuntime) -> Result<(), Fail> {
    is_kept::<Arrays<'_>, HostRuntime>(&rt, rt.alloc(), ARRAYS, KNOWN)
}

fn is_kept<L: LendsArrays, R: Abort>(
    rt: &R,
    alloc: Global,
    lender: L,
    other: L,
) -> Result<(), Fail> {
    let mut session = Session::new(alloc, lender);
    let yes = session.ask(DEPTH, 0)?;
    let no = session.ask(DEPTH, 2)?;
    assert!(rt; session.ask(DEPTH, 3)?.outcome == Outcome::Maybe);
    let held = session.held_nodes();
    for turn in 0..3u32 {
        // Goal 3 asks 4, which is another one now.
        session.change(other)?;
        let changed = session.ask(DEPTH, 3)?;
        assert!(rt;
            changed.outcome == Outcome::Yes && changed.started == 2,
            "turn {turn}"
        );
        session.change(lender)?;
        let changed = session.ask(DEPTH, 3)?;
        assert!(rt;
            changed.outcome == Outcome::Maybe && changed.started > 0,
            "turn {turn}"
        );
        assert!(rt; session.wanted()?.as_slice() == [4].as_slice());
        assert!(rt; session.held_nodes() == held, "turn {turn}");

        // All others are known as before, and their graphs are there.
        let again = session.ask(DEPTH, 0)?;
        assert!(rt; again.node == yes.node && again.started == 0, "turn {turn}");
        assert!(rt; words_of(&session, again)?.as_slice() == WORDS);
        let again = session.ask(DEPTH, 2)?;
        assert!(rt; again.node == no.node && again.started == 0, "turn {turn}");
    }
    Ok(())
}

/// Goals 0 and 1 ask each other by a step of unknown kind, and 2 asks 0. Goal 3 asks itself by forced ambiguity. Goals 4 and 5 ask
/// one further each, 6 holds, and 7 does not, since 8 has no rule.
const RULES: &str =
    "rule A = i:B\nrule B = u:A\nrule C = c:A\nrule D = f:D\nrule E = i:F\nrule F = i:G\nrule G =\nrule H = i:I\n";

#[test]
fn maybes_have_their_causes(rt: HostRuntime) -> Result<(), Fail> {
    let rules = Rules::read(rt.alloc(), RULES.as_bytes())?;
    let rows = TableRows::new(rt.alloc(), &rules)?;
    have_their_causes::<Arrays<'_>, HostRuntime>(&rt, rt.alloc(), rows.arrays())
}

fn have_their_causes<L: LendsArrays, R: Abort>(
    rt: &R,
    alloc: Global,
    lender: L,
) -> Result<(), Fail> {
    let session = Session::new(alloc, lender);
    for (goal, outcome) in [(6, Outcome::Yes), (7, Outcome::No)] {
        let caused = session.cause(DEPTH, goal)?;
        assert!(rt; caused.outcome == outcome && caused.reason.is_none());
        assert!(rt; !caused.limits_met && !caused.is_unknown);
    }
    let unknown = Cause::Cycle(PathKind::Unknown);
    for goal in [0, 2] {
        let caused = session.cause(DEPTH, goal)?;
        is_cut(rt, caused, 1, PathKind::Unknown, 0, unknown);
        assert!(rt;
            !caused.limits_met && caused.started == u64::from(goal) + 2 - u64::from(goal / 2)
        );
    }
    let forced = Cause::Cycle(PathKind::ForcedAmbiguity);
    is_cut(
        rt,
        session.cause(DEPTH, 3)?,
        3,
        PathKind::ForcedAmbiguity,
        3,
        forced,
    );

    // With one step less than it needs, the last question is cut off, and with none the first.
    let none = Cause::Depth { or_runs: false };
    is_cut(rt, session.cause(1, 4)?, 5, PathKind::Inductive, 6, none);
    let caused = session.cause(0, 4)?;
    is_cut(rt, caused, 4, PathKind::Inductive, 5, none);
    assert!(rt; caused.limits_met);
    assert!(rt; session.held_nodes() == 0); // it knows nothing of that
    Ok(())
}

/// That it is a maybe, cut off at this question of a known goal.
fn is_cut<R: Abort>(rt: &R, caused: Caused, by: u32, kind: PathKind, asked: u32, cause: Cause) {
    assert!(rt; caused.outcome == Outcome::Maybe && !caused.is_unknown);
    let Some(Reason::Cut(cut)) = caused.reason else {
        panic!(rt; "no question is named");
    };
    assert!(rt; cut.by == by && cut.kind == kind && cut.asked == asked);
    assert!(rt; cut.cause == cause, "{:?}", cut.cause);
}

#[test]
fn unknown_goals_are_causes(rt: HostRuntime) -> Result<(), Fail> {
    are_causes::<Arrays<'_>, HostRuntime>(&rt, rt.alloc(), ARRAYS)
}

fn are_causes<L: LendsArrays, R: Abort>(rt: &R, alloc: Global, lender: L) -> Result<(), Fail> {
    let session = Session::new(alloc, lender);
    for (depth, goal) in [(DEPTH, 3), (DEPTH, 4), (1, 3), (0, 4)] {
        let caused = session.cause(depth, goal)?;
        assert!(rt; caused.outcome == Outcome::Maybe && caused.is_unknown);
        let Some(Reason::Cut(Cut { by, .. })) = caused.reason else {
            return Err("no question is named".into());
        };
        assert!(rt; by == 4);
    }
    let short = session.cause(0, 3)?;
    assert!(rt; !short.is_unknown && short.limits_met);
    assert!(rt; session.cause(DEPTH, 7)?.reason.is_none()); // there is none
    Ok(())
}
