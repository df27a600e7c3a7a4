//! Rules as rows: those of a text's table, and rows that are not in order.

use candidate_lists::CandidateLists;
use rule_arrays::{
    Arrays, CandidateRow, GoalRow, NOT_KNOWN, QuestionRow, RowFault, RulesIn, TableRows, find,
    first_fault,
};
use rule_tables::Rules;
use rule_tables::delegate::Table;
use search_context::path::PathKind;
use std::process::Abort;
use std::test::Fail;

const TEXT: &str =
    "rule A = i:B c:C\nrule ~A = f:A\nrule C =\nask 3 D\nrule B = u:A u:C\nrule A = c:D\n";

const FEW: usize = 5;

/// The rows have the candidates of the table, goal by goal, and find each name.
#[test]
fn rows_have_what_the_table_has(rt: HostRuntime) -> Result<(), Fail> {
    let Ok(rules) = Rules::read(rt.alloc(), TEXT.as_bytes()) else {
        return Err("the text is malformed".into());
    };
    let rows = TableRows::new(rt.alloc(), &rules)?;
    let arrays = rows.arrays();
    assert!(rt; first_fault(arrays).is_none());
    assert!(rt; rows.names.as_slice() == b"A\nB\nC\nD\n".as_slice());
    for name in [b"A", b"B", b"C", b"D"] {
        let Some(goal) = rules.goal(name) else {
            return Err("a name has no goal".into());
        };
        assert!(rt; find(rows.names.as_slice(), name) == Some(goal.number()));
        for candidate in 0..FEW {
            let mark = RulesIn { lender: arrays }.mark(goal.number(), candidate);
            assert!(rt; mark == Table { lender: &rules }.mark(goal, candidate));
            for place in 0..FEW {
                let question = RulesIn { lender: arrays }.question(goal.number(), candidate, place);
                let wanted = Table { lender: &rules }.question(goal, candidate, place);
                assert!(rt; question == wanted.map(|(kind, asked)| (kind, asked.number())));
            }
        }
    }
    assert!(rt; find(rows.names.as_slice(), b"").is_none());
    assert!(rt; find(rows.names.as_slice(), b"E").is_none());
    Ok(())
}

const GOAL: GoalRow = GoalRow { first: 9, count: 9 };

const CANDIDATE: CandidateRow = CandidateRow {
    first: 9,
    count: 9,
    is_marked: 9,
};

const QUESTION: QuestionRow = QuestionRow { kind: 9, goal: 9 };

/// What is written is what was made, or nothing where there is no room, and what stands behind stays.
#[test]
fn rows_are_written_where_there_is_room(rt: HostRuntime) -> Result<(), Fail> {
    let Ok(rules) = Rules::read(rt.alloc(), TEXT.as_bytes()) else {
        return Err("the text is malformed".into());
    };
    let rows = TableRows::new(rt.alloc(), &rules)?;
    let sizes = rows.sizes();
    assert!(rt; (sizes.goals, sizes.candidates, sizes.questions, sizes.names) == (4, 5, 6, 8));
    let mut goals = [GOAL; 5];
    let mut candidates = [CANDIDATE; 5];
    let mut questions = [QUESTION; 6];
    let mut names = [0; 8];
    assert!(rt; !rows.write(&mut goals, &mut candidates, &mut questions[..5], &mut names));
    assert!(rt;
        goals == [GOAL; 5]
            && candidates == [CANDIDATE; 5]
            && questions == [QUESTION; 6]
            && names == [0; 8]
    );
    assert!(rt; rows.write(&mut goals, &mut candidates, &mut questions, &mut names));
    assert!(rt; &goals[..4] == rows.goals.as_slice() && goals[4] == GOAL);
    assert!(rt;
        candidates.as_slice() == rows.candidates.as_slice()
            && questions.as_slice() == rows.questions.as_slice()
    );
    assert!(rt; names == *b"A\nB\nC\nD\n");
    Ok(())
}

/// Rows that are not in order are called, and read all the same.
#[test]
fn faults_of_rows_are_called(rt: HostRuntime) -> Result<(), Fail> {
    let known = GoalRow { first: 0, count: 1 };
    let unknown = GoalRow {
        first: 7,
        count: NOT_KNOWN,
    };
    let candidate = CandidateRow {
        first: 0,
        count: 1,
        is_marked: 1,
    };
    let question = QuestionRow { kind: 2, goal: 1 };
    let arrays = Arrays {
        goals: &[known, unknown],
        candidates: &[candidate],
        questions: &[question],
    };
    assert!(rt; first_fault(arrays).is_none());
    let lists = RulesIn { lender: arrays };
    assert!(rt; lists.question(0, 0, 0) == Some((PathKind::Coinductive, 1)));
    assert!(rt; lists.question(1, 0, 0) == Some((PathKind::ForcedAmbiguity, 1)));
    assert!(rt; lists.mark(0, 0) == Some(true) && lists.mark(1, 0) == Some(false));
    assert!(rt;
        lists.mark(0, 1).is_none() && lists.mark(1, 1).is_none() && lists.mark(2, 0).is_none()
    );
    let past = Arrays {
        goals: &[unknown, GoalRow { first: 1, count: 1 }],
        ..arrays
    };
    assert!(rt; first_fault(past) == Some(RowFault::Goal(1)));
    assert!(rt; RulesIn { lender: past }.mark(1, 0).is_none());
    let marked = Arrays {
        candidates: &[CandidateRow {
            is_marked: 2,
            ..candidate
        }],
        ..arrays
    };
    assert!(rt; first_fault(marked) == Some(RowFault::Candidate(0)));
    let stray = Arrays {
        questions: &[question, QuestionRow { kind: 0, goal: 2 }],
        ..arrays
    };
    assert!(rt; first_fault(stray) == Some(RowFault::Question(1)));
    let kind = Arrays {
        questions: &[QuestionRow { kind: 4, goal: 0 }],
        ..arrays
    };
    assert!(rt; first_fault(kind) == Some(RowFault::Question(0)));
    Ok(())
}
