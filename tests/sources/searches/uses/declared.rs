//! Types that are declared one by one, among them such as no text has.

use crate::searches::uses::agreed::{Asked, answered_otherwise};
use crate::searches::uses::sides::{Side, declare_all};
use std::alloc::Global;
use std::process::Abort;
use std::test::Fail;
use structural_types::Types;

const INT: usize = 0;

const TEXT: usize = 1;

const TOP: usize = 2;

const BOTTOM: usize = 3;

/// The types that all cases have, by the names above.
const FIRST: [Side; 4] = [Side::Base(1), Side::Base(2), Side::Top, Side::Bottom];

/// Types that follow the first four, from number 4 on, and what is asked of them.
#[derive(Clone, Copy)]
struct Case {
    name: &'static str,
    sides: &'static [Side],
    asked: &'static [Asked],
}

const CASES: [Case; 6] = [
    Case {
        name: "base types are below themselves",
        sides: &[Side::Base(1)],
        asked: &[
            (INT, 4, true),
            (INT, TEXT, false),
            (INT, TOP, true),
            (TOP, INT, false),
            (BOTTOM, INT, true),
            (INT, BOTTOM, false),
            (BOTTOM, TOP, true),
            (TOP, BOTTOM, false),
            // numbers that are not declared
            (5, 5, false),
            (9, 9, false),
            (BOTTOM, 9, true),
            (usize::MAX, TOP, true),
        ],
    },
    Case {
        name: "functions turn their arguments round",
        sides: &[
            Side::Function(TOP, INT),
            Side::Function(INT, TOP),
            // consumers that answer themselves, of anything and of numbers
            Side::Function(TOP, 6),
            Side::Function(INT, 7),
            // functions whose arguments are of their own type, with other results
            Side::Function(8, INT),
            Side::Function(9, TOP),
        ],
        asked: &[
            (4, 5, true),
            (5, 4, false),
            (6, 7, true),
            (7, 6, false),
            // the argument asks whether the greater result is below the less
            (8, 9, false),
            (9, 8, false),
            (8, 8, true),
            (4, INT, false),
        ],
    },
    Case {
        name: "records may have more fields",
        sides: &[
            Side::Record(&[(1, INT), (2, INT)]),
            Side::Record(&[(2, INT), (1, INT)]),
            Side::Record(&[(3, TEXT), (1, INT), (2, INT)]),
            Side::Record(&[]),
            Side::Record(&[(1, TEXT), (2, INT)]),
        ],
        asked: &[
            (4, 5, true),
            (5, 4, true),
            (6, 4, true),
            (4, 6, false),
            (4, 7, true),
            (7, 4, false),
            (8, 4, false),
            (7, INT, false),
        ],
    },
    Case {
        name: "streams are compared by what they hold",
        sides: &[
            // head and tail: of ints, and of anything
            Side::Record(&[(1, INT), (2, 4)]),
            Side::Record(&[(1, TOP), (2, 5)]),
            // ints, written in two equations, and one that holds a text after an int
            Side::Record(&[(1, INT), (2, 7)]),
            Side::Record(&[(2, 6), (1, INT)]),
            Side::Record(&[(1, INT), (2, 9)]),
            Side::Record(&[(1, TEXT), (2, 8)]),
        ],
        asked: &[
            (4, 5, true),
            (5, 4, false),
            (6, 4, true),
            (4, 7, true),
            (8, 4, false),
            (8, 5, true),
        ],
    },
    Case {
        name: "unions are taken apart on both sides",
        sides: &[
            Side::Union(&[INT, TEXT]),
            Side::Union(&[TEXT, INT]),
            Side::Union(&[BOTTOM, 5]),
            Side::Union(&[]),
            // a list of ints, 9, is nothing or an int and a list; one of at least one int is below it
            Side::Record(&[]),
            Side::Union(&[10, 8]),
            Side::Record(&[(1, INT), (2, 9)]),
            Side::Union(&[11]),
        ],
        asked: &[
            (4, 5, true),
            (5, 4, true),
            (6, 4, true),
            (TEXT, 6, true),
            (4, INT, false),
            (TOP, 4, false),
            (7, INT, true),
            (INT, 7, false),
            (10, 9, true),
            (9, 9, true),
            // a union of itself alone is below all and above all
            (11, INT, true),
            (INT, 11, true),
        ],
    },
    Case {
        name: "rings are compared all the way round",
        sides: &[
            // three records and four, each with the next one of its ring as its field
            Side::Record(&[(1, 5)]),
            Side::Record(&[(1, 6)]),
            Side::Record(&[(1, 4)]),
            Side::Record(&[(1, 8)]),
            Side::Record(&[(1, 9)]),
            Side::Record(&[(1, 10)]),
            Side::Record(&[(1, 7)]),
            // and four of which the last one has another field
            Side::Record(&[(1, 12)]),
            Side::Record(&[(1, 13)]),
            Side::Record(&[(1, 14)]),
            Side::Record(&[(2, 11)]),
        ],
        asked: &[(4, 7, true), (7, 4, true), (4, 11, false), (11, 7, false)],
    },
];

#[test]
fn declared_types_are_compared(rt: HostRuntime) -> Result<(), Fail> {
    for case in CASES {
        let otherwise = case_otherwise(rt.alloc(), case.sides, case.asked)?;
        let name = case.name;
        assert_eq!(rt; otherwise, None, "{name}");
    }
    Ok(())
}

/// The first pair that is answered otherwise.
fn case_otherwise(alloc: Global, sides: &[Side], asked: &[Asked]) -> Result<Option<Asked>, Fail> {
    let mut types = Types::new(alloc);
    declare_all(alloc, &mut types, &FIRST)?;
    declare_all(alloc, &mut types, sides)?;
    answered_otherwise::<&Types>(alloc, &types, asked)
}
