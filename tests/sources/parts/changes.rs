//! Rows that change, and the goals that this concerns.

use rule_arrays::{
    Arrays, CandidateRow, GoalRow, LendsArrays, NOT_KNOWN, QuestionRow, TableRows, concerned,
};
use rule_tables::Rules;
use std::alloc::Global;
use std::collections::HashSet;
use std::process::Abort;
use std::test::Fail;

/// A asks B and C, B asks C, and C asks D and E. F asks itself and A, G asks E, and H nothing.
const TEXT: &str =
    "rule A = i:B c:C\nrule ~A = f:A\nrule B = i:C\nrule C = u:D\nrule C = i:E\nrule D =\nrule E =\nrule F = c:F i:A\nrule G = i:E\nrule H =\n";

fn rows_of(alloc: Global, text: &str) -> Result<TableRows, Fail> {
    let Ok(rules) = Rules::read(alloc, text.as_bytes()) else {
        return Err("the text is malformed".into());
    };
    Ok(TableRows::new(alloc, &rules)?)
}

/// Whether these goals and no others of the first twelve are concerned.
fn are<O: LendsArrays, N: LendsArrays>(
    alloc: Global,
    old: O,
    new: N,
    goals: &[u32],
) -> Result<bool, Fail> {
    let found: HashSet<u32> = concerned(alloc, old, new)?;
    for goal in 0..12u32 {
        if found.contains(&goal) != goals.contains(&goal) {
            return Ok(false);
        }
    }
    Ok(found.len() == goals.len())
}

#[test]
fn who_reaches_a_change_is_concerned(rt: HostRuntime) -> Result<(), Fail> {
    let alloc = rt.alloc();
    let old = rows_of(alloc, TEXT)?;
    let mut new = rows_of(alloc, TEXT)?;
    assert!(rt; are(alloc, old.arrays(), new.arrays(), &[])?);

    // E holds no longer: C, which asks it, and all that reach C are concerned, and G.
    new.goals[4].count = 0;
    let reached = [0, 1, 2, 4, 5, 6];
    assert!(rt; are(alloc, old.arrays(), new.arrays(), &reached)?);
    assert!(rt; are(alloc, new.arrays(), old.arrays(), &reached)?);

    // It is not known any more.
    new.goals[4].count = NOT_KNOWN;
    assert!(rt; are(alloc, old.arrays(), new.arrays(), &reached)?);
    assert!(rt; are(alloc, new.arrays(), new.arrays(), &[])?);

    // H is gone, and then stands elsewhere, with what it had.
    let mut fewer = rows_of(alloc, TEXT)?;
    fewer.goals.pop();
    assert!(rt; are(alloc, old.arrays(), fewer.arrays(), &[7])?);
    assert!(rt; are(alloc, fewer.arrays(), old.arrays(), &[7])?);
    let count = fewer.candidates.len() as u32;
    fewer.candidates.push(CandidateRow {
        first: 3,
        count: 0,
        is_marked: 0,
    })?;
    fewer.goals.push(GoalRow {
        first: count,
        count: 1,
    })?;
    assert!(rt; are(alloc, old.arrays(), fewer.arrays(), &[])?);

    // A question, a mark, and a kind.
    let mut other = rows_of(alloc, TEXT)?;
    other.questions[0].goal = 3;
    assert!(rt; are(alloc, old.arrays(), other.arrays(), &[0, 5])?);
    let mut other = rows_of(alloc, TEXT)?;
    other.candidates[1].is_marked = 0;
    assert!(rt; are(alloc, old.arrays(), other.arrays(), &[0, 5])?);
    let mut other = rows_of(alloc, TEXT)?;
    other.questions[3].kind = 2;
    assert!(rt; are(alloc, old.arrays(), other.arrays(), &[0, 1, 5])?);
    Ok(())
}

/// Goal 0 has a candidate that asks itself by forced ambiguity, which is what a goal has that is not known. Goal 1 asks one past
/// the end, and more than there is.
const ODD: Arrays<'static> = Arrays {
    goals: &[
        GoalRow { first: 0, count: 1 },
        GoalRow { first: 1, count: 7 },
    ],
    candidates: &[
        CandidateRow {
            first: 0,
            count: 1,
            is_marked: 0,
        },
        CandidateRow {
            first: 1,
            count: 9,
            is_marked: 2,
        },
    ],
    questions: &[
        QuestionRow { kind: 3, goal: 0 },
        QuestionRow {
            kind: 9,
            goal: 4294967295,
        },
    ],
};

const UNKNOWN: Arrays<'static> = Arrays {
    goals: &[
        GoalRow {
            first: 0,
            count: NOT_KNOWN,
        },
        GoalRow { first: 1, count: 1 },
    ],
    candidates: &[
        CandidateRow {
            first: 0,
            count: 0,
            is_marked: 0,
        },
        CandidateRow {
            first: 0,
            count: 1,
            is_marked: 1,
        },
    ],
    questions: &[QuestionRow {
        kind: 9,
        goal: 4294967295,
    }],
};

const NONE: Arrays<'static> = Arrays {
    goals: &[],
    candidates: &[],
    questions: &[],
};

#[test]
fn rows_out_of_order_are_compared(rt: HostRuntime) -> Result<(), Fail> {
    let alloc = rt.alloc();
    assert!(rt; are(alloc, ODD, UNKNOWN, &[])?);
    assert!(rt; are(alloc, ODD, NONE, &[0, 1])?);
    assert!(rt; are(alloc, NONE, UNKNOWN, &[0, 1])?);
    assert!(rt; are(alloc, NONE, NONE, &[])?);
    Ok(())
}
