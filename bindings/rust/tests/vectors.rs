//! The runs of the original through this crate: as texts, as sessions over rows, and by rules on demand.
mod cases;

use cases::{cases, Named};
use mirfodwel::{texts, Candidate, Error, Goal, Outcome, Session, Solver, Table};
use std::collections::HashMap;

/// The lines, with what the checker says after each yes and no.
fn checked(lines: &str) -> String {
    let is_definite = |line: &str| matches!(line.split(' ').nth(1), Some("yes" | "no"));
    lines.lines().map(|it| format!("{it}{}\n", if is_definite(it) { " checked" } else { "" })).collect()
}

#[test]
fn texts_are_answered_as_by_the_programs() {
    let cases = cases();
    for case in &cases {
        let (answers, goals) = (texts::answers(&case.input), texts::goals(&case.input));
        if case.status == 0 {
            let (answers, goals) = (answers.unwrap(), goals.unwrap());
            assert!(answers.are_all_well() && goals.are_all_well(), "case {}", case.name);
            assert_eq!(answers.as_str(), case.lines, "case {}", case.name);
            assert_eq!(goals.as_str(), checked(&case.lines), "case {}", case.name);
        } else {
            let error = Err(Error::BadText { reason: case.errors.trim_end().to_string() });
            assert_eq!((case.status, &answers, &goals), (2, &error, &error), "case {}", case.name);
        }
    }
    println!("{} cases", cases.len());
    assert!(cases.len() >= 2000);
}

/// The goals of these names; where the rules do not name one, a goal without candidates.
fn goals<'n>(table: &mut Table, names: impl Iterator<Item = &'n String>) -> HashMap<&'n str, Goal> {
    let mut goals = HashMap::new();
    for name in names {
        goals.entry(name.as_str()).or_insert_with(|| {
            table.goal(name).unwrap_or_else(|| {
                let goal = table.add_goal().unwrap();
                table.set_candidates(goal, &[]).unwrap();
                goal
            })
        });
    }
    goals
}

/// The graph of a definite answer is valid for it, and for nothing else.
fn is_shown(session: &mut Session, goal: Goal, answer: mirfodwel::Answer) -> bool {
    let other = if answer.outcome == Outcome::Yes { Outcome::No } else { Outcome::Yes };
    match answer.node {
        Some(node) => {
            let graph = session.graph(node).unwrap();
            session.check(goal, answer.outcome, &graph).unwrap() && !session.check(goal, other, &graph).unwrap()
        }
        None => !answer.outcome.is_definite(),
    }
}

#[test]
fn sessions_over_rows_answer_the_same() {
    for case in cases().iter().filter(|it| it.status == 0) {
        let mut table = Table::read(&case.input).unwrap();
        let asked = case.questions();
        let goals = goals(&mut table, asked.iter().map(|it| &it.1));
        let mut session = Session::open(table).unwrap();
        let mut lines = String::new();
        for (depth, name) in &asked {
            let goal = goals[name.as_str()];
            let answer = session.ask(goal, *depth).unwrap();
            lines += &format!("{name} {} {}\n", answer.outcome, answer.runs);
            assert!(is_shown(&mut session, goal, answer), "case {}", case.name);
        }
        assert_eq!(lines, case.lines, "case {}", case.name);
        assert_eq!(session.wanted().unwrap(), [], "case {}", case.name);
    }
}

#[test]
fn rows_are_those_of_the_text() {
    for case in cases().iter().filter(|it| it.status == 0) {
        let (table, rules) = (Table::read(&case.input).unwrap(), Named::read(&case.input));
        for goal in table.goals() {
            let name = table.name(goal).unwrap();
            assert_eq!(table.goal(name), Some(goal));
            let by_name: Vec<Candidate<String>> = (table.candidates(goal).unwrap().into_iter())
                .map(|it| Candidate {
                    is_marked: it.is_marked,
                    questions: (it.questions.iter())
                        .map(|it| mirfodwel::Question { kind: it.kind, goal: table.name(it.goal).unwrap().to_string() })
                        .collect(),
                })
                .collect();
            assert_eq!(by_name, rules.0.get(name).cloned().unwrap_or_default(), "{name} of case {}", case.name);
        }
    }
}

#[test]
fn rules_on_demand_agree_with_the_whole_table() {
    let (mut same, mut earlier, mut rounds) = (0, 0, 0);
    for case in cases().iter().filter(|it| it.status == 0) {
        let rules = Named::read(&case.input);
        for (depth, name) in case.questions() {
            let mut table = Table::read(&case.input).unwrap();
            let goal = goals(&mut table, std::iter::once(&name))[name.as_str()];
            let whole = Session::open(table).unwrap().ask(goal, depth).unwrap().outcome;
            let mut solver = Solver::new(&rules).with_first_goals(1);
            let answer = solver.ask(&name, depth).unwrap();
            rounds += solver.rounds();
            if answer.outcome == whole {
                same += 1;
            } else {
                // What is known early may decide a goal before the rest stands in its way, and never otherwise.
                assert!(answer.outcome.is_definite() && !whole.is_definite(), "{name} of case {}", case.name);
                earlier += 1;
            }
            if let Some(node) = answer.node {
                let graph = solver.graph(node).unwrap();
                assert_eq!(graph.root().unwrap().goal(), &name);
                assert!(solver.check(&name, answer.outcome, &graph).unwrap());
            }
        }
    }
    println!("{same} the same, {earlier} decided before all was known, in {rounds} rounds");
    assert!(rounds > 3 * (same + earlier) / 2);
}
