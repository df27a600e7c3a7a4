//! Stored results that are validated: their goals are worked out once more, each in a scope, and come to the stored
//! result or to a fault.

use crate::searches::validation::acts::{Act, Way, tell};
use delegate_parts::Outcome;
use std::test::Fail;

/// What is done with a cache over a table of rules, and what comes of it.
struct Case {
    /// What the case shows.
    name: &'static str,
    rules: &'static str,
    /// The goals whose stored results are validated.
    validated: &'static [&'static str],
    acts: &'static [Act],
    /// What the last act comes to.
    wanted: &'static str,
}

/// Two goals that ask each other: their cycle is coinductive, and both hold.
const CIRCLE: &str = "rule A = i:B\nrule B = c:A\n";

/// The same with an inductive cycle, beside which A holds by another rule.
const DETOUR: &str = "rule A = i:B\nrule A =\nrule B = i:A\n";

/// A goal that asks a second one, which asks a third one, which holds.
const CHAIN: &str = "rule A = i:B\nrule B = i:C\nrule C =\n";

/// A goal that has two runs where it asks itself.
const TWO_RUNS: &str = "rule A = i:A\nrule A = c:A\n";

/// A goal that asks another one twice, which asks it.
const TWICE: &str = "rule A = c:B c:B\nrule B = c:A\n";

/// Two goals that ask themselves, of which the first one asks the other, too.
const LOOPS: &str = "rule A = c:A i:B\nrule B = c:B\n";

/// A is asked at depth 4.
const ASK: Act = Act::Ask(Way::Question, 4, "A");

/// No more depth than the chain takes.
const ASK_CHAIN: Act = Act::Ask(Way::Question, 2, "A");

const CASES: [Case; 16] = [
    Case {
        name: "an equal result answers",
        rules: CIRCLE,
        validated: &["A"],
        acts: &[ASK, ASK],
        wanted: "yes after 2 [A (A (B [A A] B=yes B) A=yes A) A], stored: A yes 2",
    },
    Case {
        name: "another result is a fault",
        rules: CIRCLE,
        validated: &["A"],
        acts: &[Act::Success("A", Outcome::Maybe), ASK],
        wanted: "A is yes and not maybe after 2 with 2 scopes, 2 dropped, stored: A maybe 0",
    },
    // B is worked out twice, once for each run of A. Each time its scope is dropped after its frame, and before the frame
    // of A goes on.
    Case {
        name: "a result that rests on others is not compared",
        rules: DETOUR,
        validated: &["B"],
        acts: &[Act::Success("B", Outcome::Maybe), ASK],
        wanted: "yes after 4 (A [B (B B=no B) B] A=no (A A) [B (B B=yes B) B] A=yes A), stored: A yes 2 B maybe 0",
    },
    Case {
        name: "without a scope a stored result answers",
        rules: DETOUR,
        validated: &[],
        acts: &[Act::Success("B", Outcome::Maybe), ASK],
        wanted: "yes after 1 (A A=maybe A), stored: A yes 1 B maybe 0",
    },
    Case {
        name: "where nothing is stored the scope is dropped at once",
        rules: CHAIN,
        validated: &["B"],
        acts: &[ASK_CHAIN],
        wanted: "yes after 3 (A [B B] (B (C C) B=yes B) A=yes A), stored: A yes 2 B yes 1 C yes 0",
    },
    Case {
        name: "a builder that records is given no scope",
        rules: CHAIN,
        validated: &["A", "B", "C"],
        acts: &[
            Act::Ask(Way::Question, 2, "B"),
            Act::Ask(Way::Recorded, 2, "A"),
        ],
        wanted: "yes after 3 (A (B (C C) B=yes B) A=yes A), stored: B yes 1 C yes 0",
    },
    Case {
        name: "the root of a proof tree is given no scope",
        rules: CHAIN,
        validated: &["A", "B"],
        acts: &[ASK_CHAIN, Act::Ask(Way::Tree, 2, "A")],
        wanted: "yes after 2 (A [B (B B=yes B) B] A=yes A), stored: A yes 2 B yes 1 C yes 0",
    },
    Case {
        name: "no goal of a recorded proof tree is given a scope",
        rules: CHAIN,
        validated: &["A", "B"],
        acts: &[ASK_CHAIN, Act::Ask(Way::RecordedTree, 2, "A")],
        wanted: "yes after 3 (A (B (C C) B=yes B) A=yes A), stored: A yes 2 B yes 1 C yes 0",
    },
    Case {
        name: "each goal has a scope of its own",
        rules: CHAIN,
        validated: &["A", "B", "C"],
        acts: &[ASK_CHAIN, ASK_CHAIN],
        wanted: "yes after 3 [A (A [B (B [C (C C) C] B=yes B) B] A=yes A) A], stored: A yes 2 B yes 1 C yes 0",
    },
    Case {
        name: "a scope is held over all runs of its goal",
        rules: TWO_RUNS,
        validated: &["A"],
        acts: &[ASK, ASK],
        wanted: "yes after 2 [A (A [A A] A=no [A A] A=yes (A A) [A A] A=yes [A A] A=yes A) A], stored: A yes 1",
    },
    Case {
        name: "an equal result that met overflow answers",
        rules: CHAIN,
        validated: &["A"],
        acts: &[
            Act::Ask(Way::Question, 1, "A"),
            Act::Ask(Way::Question, 1, "A"),
        ],
        wanted: "maybe after 1 [A (A A=maybe A) A], stored: A maybe at 1 B maybe at 0",
    },
    Case {
        name: "another result than one that met overflow is a fault",
        rules: CIRCLE,
        validated: &["A"],
        acts: &[Act::Overflow("A", Outcome::Maybe, 4), ASK],
        wanted: "A is yes and not maybe after 2 with 2 scopes, 2 dropped, stored: A maybe at 4",
    },
    Case {
        name: "a provisional entry answers before a scope is asked for",
        rules: TWICE,
        validated: &["B"],
        acts: &[Act::Success("B", Outcome::Maybe), ASK],
        wanted: "yes after 2 (A [B (B B=yes B) B] A=yes A=yes A), stored: A yes 2 B maybe 0",
    },
    Case {
        name: "a refused question is given no scope",
        rules: CHAIN,
        validated: &["B"],
        acts: &[Act::Ask(Way::Question, 0, "A")],
        wanted: "maybe after 1 (A A=overflow A), stored: A maybe at 0",
    },
    Case {
        name: "a goal below one in a scope is a fault",
        rules: LOOPS,
        validated: &["A", "B"],
        acts: &[
            Act::Success("A", Outcome::Maybe),
            Act::Success("B", Outcome::Maybe),
            ASK,
        ],
        wanted: "B is yes and not maybe after 2 with 4 scopes, 4 dropped, stored: A maybe 0 B maybe 0",
    },
    Case {
        name: "want of memory drops every scope",
        rules: CHAIN,
        validated: &["A", "B", "C"],
        acts: &[ASK_CHAIN, Act::Refuse("C"), ASK_CHAIN],
        wanted: "out of memory after 2 with 3 scopes, 3 dropped, stored: A yes 2 B yes 1 C yes 0",
    },
];

#[test]
fn stored_results_are_validated(rt: HostRuntime) -> Result<(), Fail> {
    for case in &CASES {
        let told = tell(rt.alloc(), case.rules, case.validated, case.acts)?;
        assert_eq!(rt; told.as_slice(), case.wanted.as_bytes(), "{}", case.name);
    }
    Ok(())
}
