//! Rules that give candidates on demand.
mod cases;

use cases::{Named, Numbers};
use mirfodwel::{Candidate, Error, Form, Outcome, PathKind, Question, Rules, Session, Solver, Table};
use std::cell::RefCell;

/// Random rules over so many names, with steps of the first kinds.
fn random(numbers: &mut Numbers, names: usize, kinds: &[PathKind]) -> Named {
    let mut rules = Named::default();
    for name in 0..names {
        let candidates = (0..numbers.below(4)).map(|_| {
            let questions = (0..numbers.below(4)).map(|_| {
                let goal =
                    if numbers.below(3) > 0 { (name + 1 + numbers.below(3)) % names } else { numbers.below(names) };
                Question { kind: kinds[numbers.below(kinds.len())], goal: format!("g{goal}") }
            });
            let candidate = Candidate::new(questions.collect::<Vec<_>>());
            if numbers.below(5) == 0 {
                candidate.marked()
            } else {
                candidate
            }
        });
        let candidates = candidates.collect();
        rules.0.insert(format!("g{name}"), candidates);
    }
    rules
}

/// What a whole table says to the goal.
fn whole(rules: &Named, name: &str, depth: usize) -> Outcome {
    let table = Table::read(rules.text()).unwrap();
    match table.goal(name) {
        Some(goal) => Session::open(table).unwrap().ask(goal, depth).unwrap().outcome,
        None => Outcome::No,
    }
}

#[test]
fn random_rules_are_answered_as_by_a_whole_table() {
    let mut numbers = Numbers(0x9e37_79b9_7f4a_7c15);
    use PathKind::{Coinductive, ForcedAmbiguity, Inductive, Unknown};
    let mut seen = [0; 4];
    for round in 0..300 {
        // Steps of one kind decide all goals. Where all kinds meet, a search of many goals may take very long.
        let (names, kinds) = match round % 3 {
            0 => (2 + numbers.below(40), &[Inductive][..]),
            1 => (2 + numbers.below(40), &[Coinductive][..]),
            _ => (2 + numbers.below(14), &[Inductive, Unknown, Coinductive, ForcedAmbiguity][..]),
        };
        let rules = random(&mut numbers, names, kinds);
        let mut solver = Solver::new(&rules).with_first_goals(1 + round % 5);
        for _ in 0..5 {
            let name = format!("g{}", numbers.below(names));
            let answer = solver.ask(&name, names).unwrap();
            let other = whole(&rules, &name, names);
            seen[answer.outcome as usize] += 1;
            if kinds.len() == 1 {
                assert_eq!(answer.outcome, other, "{name} of {}", rules.text());
                assert!(answer.outcome.is_definite() && !answer.limits_met);
            } else {
                let never_both = !(answer.outcome.is_definite() && other.is_definite()) || answer.outcome == other;
                assert!(never_both, "{name} of {}", rules.text());
            }
            if let Some(node) = answer.node {
                let graph = solver.graph(node).unwrap();
                assert!(solver.check(&name, answer.outcome, &graph).unwrap());
            }
        }
    }
    assert!(seen[..2].iter().all(|it| *it > 100) && seen[2] > 10, "{seen:?}");
}

/// Each number asks the next one, and remembers who asked.
struct Endless {
    asked: RefCell<Vec<u64>>,
    last: u64,
}

impl Rules for Endless {
    type Goal = u64;

    fn candidates(&self, number: &u64) -> Vec<Candidate<u64>> {
        self.asked.borrow_mut().push(*number);
        let next = Candidate::new([Question::coinductive(number + 1)]);
        if *number == self.last {
            vec![Candidate::new([])]
        } else {
            vec![next]
        }
    }
}

fn endless(last: u64) -> Endless {
    Endless { asked: RefCell::new(Vec::new()), last }
}

#[test]
fn goals_without_end_are_followed_as_deep_as_told() {
    let mut solver = Solver::new(endless(u64::MAX));
    let answer = solver.ask(&0, 1000).unwrap();
    assert!(!answer.outcome.is_definite() && answer.limits_met && answer.node.is_none());
    assert!((1000..4000).contains(&solver.known_goals()), "{}", solver.known_goals());
    assert!(solver.rounds() < 8, "{} rounds", solver.rounds());
}

#[test]
fn candidates_are_asked_for_once() {
    let mut solver = Solver::new(endless(3000));
    for first in [2990, 0, 10] {
        assert_eq!(solver.ask(&first, 5000).unwrap().outcome, Outcome::Yes);
    }
    let mut asked = solver.rules().asked.borrow().clone();
    asked.sort();
    let count = asked.len();
    asked.dedup();
    assert_eq!((asked.len(), solver.known_goals()), (count, count));
}

#[test]
fn no_more_goals_become_known_than_may() {
    let mut solver = Solver::new(endless(3000)).with_most_goals(100);
    let answer = solver.ask(&0, 5000).unwrap();
    assert_eq!((answer.outcome, answer.limits_met, solver.known_goals()), (Outcome::Maybe, true, 100));
    // What is known already is answered all the same.
    assert_eq!(Solver::new(endless(3)).with_most_goals(100).ask(&0, 9).unwrap().outcome, Outcome::Yes);
    assert_eq!(Solver::new(endless(3)).with_most_goals(0).ask(&0, 9).unwrap().outcome, Outcome::Maybe);
}

#[test]
fn graphs_of_other_solvers_are_checked() {
    let (mut one, mut other) = (Solver::new(endless(20)), Solver::new(endless(20)));
    let answer = one.ask(&10, 50).unwrap();
    let graph = one.graph(answer.node.unwrap()).unwrap();
    assert!(one.check(&10, Outcome::Yes, &graph).unwrap());
    // What the other does not know is in no graph of it.
    assert!(!other.check(&10, Outcome::Yes, &graph).unwrap());
    // It has other numbers for these goals.
    assert_eq!(other.ask(&5, 50).unwrap().outcome, Outcome::Yes);
    assert!(other.check(&10, Outcome::Yes, &graph).unwrap());
    assert!(!other.check(&11, Outcome::Yes, &graph).unwrap());
    assert!(!other.check(&10, Outcome::No, &graph).unwrap());
    // By other rules it shows nothing.
    let mut shorter = Solver::new(endless(19));
    assert_eq!(shorter.ask(&5, 50).unwrap().outcome, Outcome::Yes);
    assert!(!shorter.check(&10, Outcome::Yes, &graph).unwrap());
}

#[test]
fn nodes_stay_where_no_more_becomes_known_below() {
    let mut solver = Solver::new(endless(90));
    let node = solver.ask(&80, 500).unwrap().node.unwrap();
    let graph = solver.graph(node).unwrap();
    let answer = solver.ask(&0, 500).unwrap();
    // The first round knows 64 goals and comes to another one; of the second the last eleven are stored.
    assert_eq!((answer.runs, solver.graph(node)), (65 + 80, Ok(graph)));
    assert_eq!(solver.graph(answer.node.unwrap()).unwrap().len(), 91);
    // Nothing new is asked here.
    assert_eq!(solver.ask(&10, 500).unwrap().runs, 0);
    assert!(solver.graph(node).is_ok());
    // This one holds by its first candidate, and the other one leads on.
    let mut solver =
        Solver::new(Named::read(b"rule a =\nrule a = i:b\nrule b = i:c\nrule c = i:d\n")).with_first_goals(1);
    let node = solver.ask(&"a".to_string(), 9).unwrap().node.unwrap();
    assert!(solver.graph(node).is_ok());
    assert_eq!(solver.ask(&"b".to_string(), 9).unwrap().outcome, Outcome::No);
    assert_eq!(solver.graph(node), Err(Error::UnknownNode));
}

/// A goal that needs a tree of so many leaves and then a long chain.
struct Tree(u64);

impl Rules for Tree {
    type Goal = (bool, u64);

    fn candidates(&self, &(is_leaf, number): &(bool, u64)) -> Vec<Candidate<(bool, u64)>> {
        let next: Vec<_> = match (is_leaf, number) {
            (true, _) => {
                [2 * number, 2 * number + 1].into_iter().filter(|it| *it < self.0).map(|it| (true, it)).collect()
            }
            (false, 0) => vec![(true, 1), (false, 1)],
            (false, 500) => vec![],
            (false, _) => vec![(false, number + 1)],
        };
        vec![Candidate::new(next.into_iter().map(Question::inductive))]
    }
}

#[test]
fn a_round_does_not_start_what_is_known_again() {
    let runs = |leaves| {
        let mut solver = Solver::new(Tree(leaves)).with_first_goals(1);
        let tree = solver.ask(&(true, 1), 1000).unwrap();
        let all = solver.ask(&(false, 0), 1000).unwrap();
        assert_eq!((tree.outcome, all.outcome, all.limits_met), (Outcome::Yes, Outcome::Yes, false));
        assert!(solver.rounds() > 1 && tree.runs >= leaves - 1);
        (all.runs, solver.rounds())
    };
    // Of the chain all is started again while its end is not known, and of the tree nothing.
    let (few, rounds) = runs(2);
    assert!(few < 1_100 && rounds > 5, "{few} runs, {rounds} rounds");
    let (many, more_rounds) = runs(300);
    assert!(more_rounds < rounds && many < 501 + 400, "{many} runs, {more_rounds} rounds");
    assert_eq!(Solver::new(Tree(300)).ask(&(false, 0), 1000).unwrap().outcome, Outcome::Yes);
}

#[test]
fn what_others_want_is_not_made_known() {
    // The first goal holds whatever comes of what it asked before, which goes on without end.
    let text: String = (0..200).map(|it| format!("rule n{it} = i:n{}\n", it + 1)).collect();
    let text = format!("rule a = i:n0\nrule a =\nrule m = u:m\n{text}");
    let mut solver = Solver::new(Named::read(text.as_bytes())).with_first_goals(1);
    assert_eq!(solver.ask(&"a".to_string(), 500).unwrap().outcome, Outcome::Yes);
    let answer = solver.ask(&"m".to_string(), 500).unwrap();
    assert_eq!((answer.outcome, solver.rounds(), solver.known_goals()), (Outcome::Maybe, 1, 2));
}

#[test]
fn explanations_are_in_the_goals_own_words() {
    let mut solver = Solver::new(Named::read(b"rule cat = c:warm c:cat\nrule warm =\n"));
    let told = solver.explain(Form::Text, &"cat".to_string(), 5).unwrap();
    assert!(told.as_str().starts_with("cat holds, by rule cat = c:warm c:cat\n"), "{told}");
    let told = solver.explain(Form::Text, &"dog".to_string(), 5).unwrap();
    assert!(told.as_str().starts_with("dog does not hold"), "{told}");
    let data = solver.explain(Form::Data, &"cat".to_string(), 5).unwrap();
    assert_eq!(mirfodwel::texts::check(data.as_str()).unwrap().as_str(), "0 yes accepted\n");
}

#[test]
fn solvers_may_go_to_another_thread() {
    let mut solver = Solver::new(endless(9));
    let answer = std::thread::spawn(move || solver.ask(&0, 20).unwrap()).join().unwrap();
    assert_eq!(answer.outcome, Outcome::Yes);
}
