//! Rows that are lent by a reference, changed where they stand, and lent again: what was found out over the rows before stays
//! known over those after, but for what rests on the change.

use crate::searches::asking::ask;
use candidate_lists::{AnyOf, CandidatesContext, ContextOf};
use delegate_parts::{Builder, Outcome};
use rule_arrays::{
    Arrays, ArraysDelegate, CandidateRow, GoalRow, LendsArrays, QuestionRow, RulesIn,
};
use search_parts::global_cache::{Findings, GlobalCache};
use std::alloc::Global;
use std::collections::HashSet;
use std::process::Abort;
use std::test::Fail;

/// More than any of these goals needs.
const DEPTH: usize = 100;

/// What is known of goals of rows.
type Found = Findings<u32, Outcome, ()>;

/// Rows that their owner changes where they stand.
#[derive(Drop)]
struct Rows {
    goals: Vec<GoalRow>,
    candidates: Vec<CandidateRow>,
    questions: Vec<QuestionRow>,
}

impl Rows {
    /// Goal 0 asks 1, which has a rule that asks nothing. Goal 2 asks 3, which has no rule.
    fn new(alloc: Global) -> Result<Rows, Fail> {
        let mut rows = Rows {
            goals: Vec::new(alloc),
            candidates: Vec::new(alloc),
            questions: Vec::new(alloc),
        };
        for (first, count) in [(0, 1), (1, 1), (2, 1), (0, 0)] {
            rows.goals.push(GoalRow { first, count })?;
        }
        for (first, count) in [(0, 1), (0, 0), (1, 1)] {
            rows.candidates.push(CandidateRow {
                first,
                count,
                is_marked: 0,
            })?;
        }
        for goal in [1, 3] {
            rows.questions.push(QuestionRow { kind: 0, goal })?;
        }
        Ok(rows)
    }

    fn lend(&self) -> Arrays<'_> {
        Arrays {
            goals: self.goals.as_slice(),
            candidates: self.candidates.as_slice(),
            questions: self.questions.as_slice(),
        }
    }

    /// From now on goal 3 has the rule that goal 1 has.
    fn change(&mut self) {
        self.goals.as_mut_slice()[3] = GoalRow { first: 1, count: 1 };
    }
}

/// What a goal came to, how many runs were started, and what is known then.
#[derive(Drop)]
struct Told {
    outcome: Outcome,
    started: u64,
    found: Found,
}

/// Asks the goal over rows that are lent, of which this is known.
fn asked<L: LendsArrays>(alloc: Global, lender: L, found: Found, goal: u32) -> Result<Told, Fail> {
    let cx = ContextOf(AnyOf(RulesIn { lender }));
    let mut cache = GlobalCache::<ArraysDelegate<L>>::over(cx, found);
    let mut builder = Builder::new(true);
    let (answer, _) = ask::<CandidatesContext<RulesIn<L>>, ArraysDelegate<L>>(
        alloc,
        &mut cache,
        DEPTH,
        goal,
        &mut builder,
    )?;
    Ok(Told {
        outcome: answer?.result,
        started: builder.started(),
        found: cache.into_findings(),
    })
}

#[test]
fn what_does_not_rest_on_a_change_stays(rt: HostRuntime) -> Result<(), Fail> {
    stays(&rt, rt.alloc())
}

fn stays<R: Abort>(rt: &R, alloc: Global) -> Result<(), Fail> {
    let mut rows = Rows::new(alloc)?;
    let first = asked::<Arrays<'_>>(alloc, rows.lend(), Findings::new(alloc), 0)?;
    assert!(rt; first.outcome == Outcome::Yes && first.started == 2);
    let second = asked::<Arrays<'_>>(alloc, rows.lend(), first.found, 2)?;
    assert!(rt; second.outcome == Outcome::No && second.started == 2);
    let mut found = second.found;
    let bytes = found.held_bytes();
    assert!(rt; found.held_nodes() == 4 && bytes > 0);

    rows.change();
    let mut gone = HashSet::new(alloc);
    gone.insert(3)?;
    gone.insert(2)?;
    found.forget(&gone);
    assert!(rt; found.held_nodes() == 2 && found.held_bytes() <= bytes);

    let kept = asked::<Arrays<'_>>(alloc, rows.lend(), found, 0)?;
    assert!(rt; kept.outcome == Outcome::Yes && kept.started == 0);
    let anew = asked::<Arrays<'_>>(alloc, rows.lend(), kept.found, 2)?;
    assert!(rt; anew.outcome == Outcome::Yes && anew.started == 2);
    let again = asked::<Arrays<'_>>(alloc, rows.lend(), anew.found, 2)?;
    assert!(rt; again.outcome == Outcome::Yes && again.started == 0);
    Ok(())
}
