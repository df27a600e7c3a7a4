//! Which types implement which traits, where goals are made as they are wanted.

use delegate_parts::Lends;
use path_kinds::path::PathKind;
use std::alloc::Global;
use std::io::Write;
use std::test::Fail;
use trait_answers::{Answers, Outcome};
use trait_goals::{Asked, Goals};
use trait_rules::{Bound, Clause, Constructor, Listed, Rule, Rules, Shape, Terms, Trait};

// traits
const SHOW: usize = 0;

const SEND: usize = 1; // holds by fields

// constructors
const INT: usize = 0; // shows

const LIST: usize = 1; // shows if its items do

const COUNTED: usize = 2; // is never sent

const NODE: usize = 3; // has a list of nodes

const GROWN: usize = 4; // shows if one that is grown once more does

/// A rule that is written down: its shapes, its head, and its clauses.
type Written = (&'static [Shape], usize, &'static [Clause]);

/// What is asked: the constructors of the type, of which each is applied to the next one, and the trait.
type Question = (&'static [usize], usize);

/// A question, the depths at which it is asked in turn, and what it comes to. After each answer the
/// goals that were wanted are made known.
#[derive(Clone, Copy)]
struct Case {
    name: &'static str,
    asked: Question,
    depths: &'static [usize],
    told: &'static str,
}

const OF_PARAMETER: &[Shape] = &[
    Shape::Parameter,
    Shape::Constructor(LIST),
    Shape::Applied(1, 0),
];

const CASES: [Case; 6] = [
    Case {
        name: "an impl whose clause holds",
        asked: (&[LIST, LIST, INT], SHOW),
        depths: &[9, 9, 9, 9],
        told: "Maybe 1, Maybe 1, Maybe 1, Yes 0",
    },
    Case {
        name: "an impl whose clause does not hold",
        asked: (&[LIST, COUNTED], SHOW),
        depths: &[9, 9, 9],
        told: "Maybe 1, Maybe 1, No 0",
    },
    Case {
        name: "fields that lead back to the type",
        asked: (&[NODE], SEND),
        depths: &[9, 9, 9],
        told: "Maybe 1, Maybe 1, Yes 0",
    },
    Case {
        name: "a negative impl",
        asked: (&[LIST, COUNTED], SEND),
        depths: &[9, 9, 9],
        told: "Maybe 1, Maybe 1, No 0",
    },
    Case {
        name: "types that grow without end",
        asked: (&[GROWN, INT], SHOW),
        depths: &[9, 9, 9],
        told: "Maybe 1, Maybe 1, Maybe 1",
    },
    Case {
        name: "a depth that is too small",
        asked: (&[LIST, INT], SHOW),
        depths: &[0, 0, 1, 0, 1],
        told: "Maybe 1 cut, Maybe 0 cut, Maybe 1 cut, Maybe 0 cut, Yes 0",
    },
];

#[test]
fn types_implement_traits(rt: HostRuntime) -> Result<(), Fail> {
    for case in CASES {
        let told = tell(rt.alloc(), case)?;
        let name = case.name;
        assert_eq!(rt;
            std::str::from_utf8(told.as_slice()),
            Ok(case.told),
            "{name}"
        );
    }
    Ok(())
}

fn tell(alloc: Global, case: Case) -> Result<Vec<u8>, Fail> {
    let mut terms = Terms::new(alloc);
    let (constructors, bound) = case.asked;
    let subject = term(&mut terms, constructors)?;
    let mut goals = Goals::new(alloc, rules(alloc)?, terms);
    let Some(goal) = goals.goal(Asked { subject, bound })? else {
        return Err("no goal")?;
    };
    let mut told = Vec::new(alloc);
    for depth in case.depths {
        let gap = if told.is_empty() { "" } else { ", " };
        write!(told, "{gap}")?;
        let wanted = ask::<&Goals>(alloc, &goals, goals.len(), goal, *depth, &mut told)?;
        for number in wanted {
            goals.expand(alloc, number)?;
        }
    }
    Ok(told)
}

/// The number of a type.
fn term(terms: &mut Terms, constructors: &[usize]) -> Result<usize, Fail> {
    let mut number = None;
    for constructor in constructors.iter().rev() {
        let applied = terms.constructor(*constructor)?;
        number = match number {
            None => Some(applied),
            Some(argument) => terms.applied(applied, argument)?,
        };
    }
    match number {
        Some(number) => Ok(number),
        None => Err("no type")?,
    }
}

/// Tells the outcome, how many goals were wanted, and whether one was cut off.
fn ask<L: Lends<Goals>>(
    alloc: Global,
    lender: L,
    count: usize,
    goal: usize,
    depth: usize,
    told: &mut Vec<u8>,
) -> Result<Vec<usize>, Fail> {
    let mut answers = Answers::<L>::new(alloc, lender);
    let answered = answers.implements(goal, depth)?;
    let mut wanted = Vec::new(alloc);
    for number in 0..count {
        if answers.was_wanted(number) {
            wanted.push(number)?;
        }
    }
    let outcome: Outcome = answered.outcome;
    let cut = if answered.limits_met { " cut" } else { "" };
    write!(told, "{outcome:?} {}{cut}", wanted.len())?;
    Ok(wanted)
}

fn rules(alloc: Global) -> Result<Rules, Fail> {
    let mut traits = Vec::new(alloc);
    traits.push(of_trait(alloc, PathKind::Inductive, false))?;
    traits.push(of_trait(alloc, PathKind::Coinductive, true))?;
    let mut constructors = Vec::new(alloc);
    let alone: Written = (&[Shape::Constructor(INT)], 0, &[]);
    constructors.push(known(alloc, Some(alone), &[(SHOW, Some(alone))])?)?;
    let fields: Written = (
        OF_PARAMETER,
        2,
        &[Clause {
            shape: 0,
            bound: Bound::Same,
        }],
    );
    let list: Written = (
        OF_PARAMETER,
        2,
        &[Clause {
            shape: 0,
            bound: Bound::Trait(SHOW),
        }],
    );
    constructors.push(known(alloc, Some(fields), &[(SHOW, Some(list))])?)?;
    constructors.push(known(alloc, None, &[(SEND, None)])?)?;
    let node: Written = (
        &[
            Shape::Constructor(NODE),
            Shape::Constructor(LIST),
            Shape::Applied(1, 0),
        ],
        0,
        &[Clause {
            shape: 2,
            bound: Bound::Same,
        }],
    );
    constructors.push(known(alloc, Some(node), &[])?)?;
    let grown: Written = (
        &[
            Shape::Parameter,
            Shape::Constructor(GROWN),
            Shape::Applied(1, 0),
            Shape::Applied(1, 2),
        ],
        2,
        &[Clause {
            shape: 3,
            bound: Bound::Trait(SHOW),
        }],
    );
    constructors.push(known(alloc, None, &[(SHOW, Some(grown))])?)?;
    Ok(Rules {
        traits,
        constructors,
    })
}

fn of_trait(alloc: Global, kind: PathKind, is_auto: bool) -> Trait {
    Trait {
        kind,
        is_auto,
        blanket: Vec::new(alloc),
    }
}

fn known(
    alloc: Global,
    fields: Option<Written>,
    impls: &[(usize, Option<Written>)],
) -> Result<Constructor, Fail> {
    let mut all = Vec::new(alloc);
    for (bound, written) in impls {
        let rule = made(alloc, *written)?;
        all.push(Listed {
            bound: *bound,
            rule,
        })?;
    }
    Ok(Constructor {
        fields: made(alloc, fields)?,
        impls: all,
    })
}

fn made(alloc: Global, written: Option<Written>) -> Result<Option<Rule>, Fail> {
    let Some((from, head, asked)) = written else {
        return Ok(None);
    };
    let mut shapes = Vec::new(alloc);
    shapes.extend_from_slice(from)?;
    let mut clauses = Vec::new(alloc);
    clauses.extend_from_slice(asked)?;
    Ok(Some(Rule {
        shapes,
        head,
        clauses,
    }))
}
