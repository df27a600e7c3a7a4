//! Shapes that end, and shapes that do not.

use delegate_parts::Lends;
use shapes::{Comparison, Shapes};
use std::alloc::Global;
use std::io::Write;
use std::process::Abort;
use std::test::Fail;

/// The label of a shape, and its parts.
type Declared = (u32, &'static [usize]);

/// Two shapes, and the depth at which they are compared.
type Asked = (usize, usize, usize);

/// Shapes, what is asked of them in turn over one cache, and what it comes to.
#[derive(Clone, Copy)]
struct Case {
    name: &'static str,
    shapes: &'static [Declared],
    asked: &'static [Asked],
    told: &'static str,
}

const CASES: [Case; 3] = [
    // Ones, ones of two equations, twos, and a one before twos.
    Case {
        name: "streams are equal however they are written",
        shapes: &[(1, &[0]), (1, &[2]), (1, &[1]), (2, &[3]), (1, &[3])],
        asked: &[
            (0, 1, 100),
            (2, 0, 100),
            (0, 3, 100),
            (0, 4, 100),
            (3, 3, 100),
        ],
        told: "Yes Yes No No Yes",
    },
    // A leaf, a fork, its twin, a fork that is turned, one with a single part, and no shape.
    Case {
        name: "trees differ in any part",
        shapes: &[
            (0, &[]),
            (7, &[0, 1]),
            (7, &[0, 2]),
            (7, &[3, 0]),
            (7, &[0]),
        ],
        asked: &[
            (1, 2, 100),
            (1, 3, 100),
            (1, 4, 100),
            (0, 1, 100),
            (5, 5, 100),
        ],
        told: "Yes No No No No",
    },
    // Ones of three equations beside ones of a single one.
    Case {
        name: "a depth that is too small is told",
        shapes: &[(1, &[1]), (1, &[2]), (1, &[0]), (1, &[3])],
        asked: &[(0, 3, 1), (0, 3, 3)],
        told: "Neither, a limit was met Yes, a limit was met",
    },
];

#[test]
fn shapes_are_compared(rt: HostRuntime) -> Result<(), Fail> {
    for case in CASES {
        let told = tell(rt.alloc(), case.shapes, case.asked)?;
        let name = case.name;
        assert_eq!(rt;
            std::str::from_utf8(told.as_slice()),
            Ok(case.told),
            "{name}"
        );
    }
    Ok(())
}

fn tell(alloc: Global, declared: &[Declared], asked: &[Asked]) -> Result<Vec<u8>, Fail> {
    let mut shapes = Shapes::new(alloc);
    for (label, parts) in declared {
        declare(alloc, &mut shapes, *label, parts)?;
    }
    tell_compared::<&Shapes>(alloc, &shapes, asked)
}

/// Declares a shape with these parts, which has to be found as it was declared.
fn declare(alloc: Global, shapes: &mut Shapes, label: u32, parts: &[usize]) -> Result<(), Fail> {
    let mut own = Vec::new(alloc);
    own.extend_from_slice(parts)?;
    let shape = shapes.declare(label, own)?;
    let found = shapes.equation(shape).ok_or("no shape was declared")?;
    if found.label != label || found.parts.as_slice() != parts {
        return Err("another shape was declared")?;
    }
    Ok(())
}

/// What the pairs come to, each with whether a limit was met until then.
fn tell_compared<S: Lends<Shapes>>(
    alloc: Global,
    shapes: S,
    asked: &[Asked],
) -> Result<Vec<u8>, Fail> {
    let mut comparison = Comparison::<S>::new(alloc, shapes);
    let mut told = Vec::new(alloc);
    for (left, right, depth) in asked {
        let verdict = comparison.are_equal(*left, *right, *depth)?;
        let gap = if told.is_empty() { "" } else { " " };
        let limits = if comparison.limits_met() {
            ", a limit was met"
        } else {
            ""
        };
        write!(told, "{gap}{verdict:?}{limits}")?;
    }
    Ok(told)
}
