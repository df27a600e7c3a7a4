//! The words of faults.

use delegate_parts::Outcome;
use rule_tables::{Goal, Rules};
use search_parts::context::Fault;
use std::process::Abort;
use std::test::Fail;
use table_runs::fault_word;

/// Each fault with its word. The goal of a fault is told nowhere.
pub(super) fn faults_of(input: Goal) -> [(Fault<Goal, Outcome>, &'static str); 4] {
    let stored = Outcome::Maybe;
    let found = Outcome::Yes;
    [
        (Fault::Memory, "memory"),
        (
            Fault::Conflict {
                input,
                stored,
                found,
            },
            "conflict",
        ),
        (
            Fault::Validation {
                input,
                stored,
                found,
            },
            "validation",
        ),
        (Fault::Protocol(1), "protocol"),
    ]
}

#[test]
fn names_each_fault(rt: HostRuntime) -> Result<(), Fail> {
    let rules = Rules::read(rt.alloc(), b"ask 0 A")?;
    let input = rules.goal(b"A").ok_or("no goal")?;
    for (fault, word) in faults_of(input) {
        assert_eq!(rt; fault_word(fault), word);
    }
    Ok(())
}
