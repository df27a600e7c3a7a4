//! Cases of the textbook, worked out by hand.

use crate::searches::uses::agreed::agreed;
use crate::searches::uses::plain::Pairs;
use std::alloc::Global;
use std::process::Abort;
use std::test::Fail;
use type_texts::TypeTable;

/// Declarations that the texts share.
const FIRST: &str =
    "type Int = base Int\ntype Text = base Text\ntype Any = top\ntype None = bottom\n";

/// Declarations, and pairs of their types, each with whether the left one is below the right one.
type Case = (&'static str, &'static [(&'static str, &'static str, bool)]);

const CASES: [Case; 16] = [
    // Types that end.
    // base types, the top and the bottom
    (
        "",
        &[
            ("Int", "Int", true),
            ("Int", "Text", false),
            ("Int", "Any", true),
            ("None", "Int", true),
            ("Any", "Int", false),
            ("Int", "None", false),
        ],
    ),
    // a record with more fields is below one with less, in any order, and with lesser parts
    (
        "type P = { x: Int }\ntype Q = { y: Text x: Int }\ntype R = { x: Int y: Text }\ntype S = { x: Any }\ntype E = { }\n",
        &[
            ("Q", "P", true),
            ("P", "Q", false),
            ("Q", "R", true),
            ("R", "Q", true),
            ("Q", "S", true),
            ("S", "P", false),
            ("S", "E", true),
            ("E", "S", false),
            ("Int", "E", false),
        ],
    ),
    // arguments the other way round, results this way
    (
        "type F = Any -> Int\ntype G = Int -> Any\ntype H = Int -> Int\ntype M = Any -> None\ntype N = None -> Any\n",
        &[
            ("F", "G", true),
            ("G", "F", false),
            ("F", "H", true),
            ("H", "G", true),
            ("H", "F", false),
            ("M", "H", true),
            ("H", "N", true),
            ("N", "H", false),
        ],
    ),
    // turned round twice is the first way again
    (
        "type F = Int -> Text\ntype G = Any -> Text\ntype FF = F -> Text\ntype GG = G -> Text\n",
        &[("G", "F", true), ("FF", "GG", true), ("GG", "FF", false)],
    ),
    // a union is above its alternatives, and below what all of them are below
    (
        "type U = Int | Text\ntype V = Text | Int\ntype W = U | None\ntype X = Int | Any\n",
        &[
            ("Int", "U", true),
            ("Text", "U", true),
            ("U", "V", true),
            ("V", "U", true),
            ("W", "V", true),
            ("U", "W", true),
            ("U", "Int", false),
            ("Any", "X", true),
            ("Any", "U", false),
        ],
    ),
    // records of unions are not taken apart into unions of records
    (
        "type U = Int | Text\ntype P = { x: U }\ntype A = { x: Int }\ntype B = { x: Text }\ntype AB = A | B\n",
        &[("AB", "P", true), ("P", "AB", false)],
    ),
    // Types that do not end.
    // streams of what is less are less
    (
        "type Ints = { head: Int tail: Ints }\ntype Things = { head: Any tail: Things }\ntype Words = { head: Text tail: Words }\n",
        &[
            ("Ints", "Things", true),
            ("Things", "Ints", false),
            ("Ints", "Words", false),
        ],
    ),
    // one stream, whether it is unrolled once, twice or not at all
    (
        "type S = { head: Int tail: S }\ntype A = { head: Int tail: B }\ntype B = { tail: A head: Int }\ntype C = { head: Int tail: S }\n",
        &[
            ("S", "A", true),
            ("A", "S", true),
            ("A", "B", true),
            ("C", "B", true),
            ("B", "C", true),
        ],
    ),
    // a function that takes numbers for ever is above one that takes anything for ever
    (
        "type Hungry = Int -> Hungry\ntype Eats = Any -> Eats\ntype Once = Int -> Twice\ntype Twice = Int -> Once\n",
        &[
            ("Eats", "Hungry", true),
            ("Hungry", "Eats", false),
            ("Once", "Hungry", true),
            ("Hungry", "Twice", true),
        ],
    ),
    // functions of their own type: greater results do not make them greater, since they are arguments, too
    (
        "type F = F -> Int\ntype G = G -> Any\ntype H = F -> Int\n",
        &[
            ("F", "G", false),
            ("G", "F", false),
            ("F", "H", true),
            ("H", "F", true),
            ("H", "G", false),
        ],
    ),
    // the argument of the argument turns round once more
    (
        "type D = D -> D\ntype E = DD -> D\ntype DD = D -> E\ntype K = Any -> K\n",
        &[
            ("D", "E", true),
            ("E", "D", true),
            ("DD", "D", true),
            ("K", "D", true),
            ("D", "K", false),
        ],
    ),
    // an object with a further method is below its interface
    (
        "type Counter = { get: Int inc: Counter }\ntype Reset = { get: Int inc: Reset reset: Reset }\ntype Back = { get: Int inc: Counter reset: Counter }\n",
        &[
            ("Reset", "Counter", true),
            ("Reset", "Back", true),
            ("Back", "Reset", false),
            ("Counter", "Reset", false),
        ],
    ),
    // but not where a method takes another object of its kind
    (
        "type Bool = base Bool\ntype Point = { x: Int eq: WithPoint }\ntype WithPoint = Point -> Bool\ntype Dot = { x: Int hue: Int eq: WithDot }\ntype WithDot = Dot -> Bool\ntype Mark = { x: Int hue: Int eq: WithPoint }\n",
        &[
            ("Dot", "Point", false),
            ("Mark", "Point", true),
            ("WithPoint", "WithDot", false),
        ],
    ),
    // a process that is fed and answers
    (
        "type Process = Int -> Step\ntype Step = { out: Int next: Process }\ntype Any1 = Any -> Step1\ntype Step1 = { next: Any1 out: Int }\ntype Odd = Int -> Step2\ntype Step2 = { out: Text next: Process }\n",
        &[
            ("Any1", "Process", true),
            ("Process", "Any1", false),
            ("Odd", "Process", false),
        ],
    ),
    // lists of an even length are lists, and a stream is a list that goes on
    (
        "type Nil = { }\ntype List = Nil | Cell\ntype Cell = { head: Int tail: List }\ntype Even = Nil | First\ntype First = { head: Int tail: Odd }\ntype Odd = { head: Int tail: Even }\ntype S = { head: Int tail: S }\n",
        &[
            ("Even", "List", true),
            ("Odd", "List", true),
            ("Even", "Odd", false),
            ("S", "Odd", true),
            ("S", "List", true),
            ("List", "S", false),
        ],
    ),
    // an alternative that fails far below, and another one that holds; and both ways round
    (
        "type A = { a: B }\ntype B = { a: C }\ntype C = { a: A b: Int }\ntype X = { a: Y }\ntype Y = { a: Z }\ntype Z = { a: X b: Text }\ntype XorA = X | A2\ntype AorX = A2 | X\ntype A2 = { a: B2 }\ntype B2 = { a: C2 }\ntype C2 = { a: AorX b: Any }\n",
        &[
            ("A", "X", false),
            ("A", "XorA", true),
            ("A", "AorX", true),
            ("X", "XorA", true),
            ("XorA", "AorX", true),
            ("AorX", "A2", true),
            ("A2", "A", false),
        ],
    ),
];

#[test]
fn types_are_answered_as_in_the_textbook(rt: HostRuntime) -> Result<(), Fail> {
    for case in CASES {
        expect_case(&rt, case)?;
    }
    Ok(())
}

/// The pairs are answered so, and all pairs as by the plain fixpoint.
fn expect_case(rt: &(impl Abort + AllocGlobal), case: Case) -> Result<(), Fail> {
    let (declared, wanted) = case;
    let table = table_with(rt.alloc(), declared)?;
    let pairs = agreed(rt.alloc(), table.types(), table.count())?;
    for (left, right, is_below) in wanted {
        let is_there = has(&table, &pairs, left, right)?;
        assert_eq!(rt; is_there, *is_below, "{left} < {right} in {declared}");
    }
    Ok(())
}

/// The types that each case has, and these.
fn table_with(alloc: Global, declared: &str) -> Result<TypeTable, Fail> {
    let mut text = Vec::new(alloc);
    text.extend_from_slice(FIRST.as_bytes())?;
    text.extend_from_slice(declared.as_bytes())?;
    Ok(TypeTable::read(alloc, text.as_slice())?)
}

fn has(table: &TypeTable, pairs: &Pairs, left: &str, right: &str) -> Result<bool, Fail> {
    Ok(pairs.has(number_of(table, left)?, number_of(table, right)?))
}

/// The number of the type of this name.
fn number_of(table: &TypeTable, name: &str) -> Result<usize, Fail> {
    let number = (0..table.count()).find(|number| table.name(*number) == Some(name.as_bytes()));
    Ok(number.ok_or("no type of this name")?)
}
