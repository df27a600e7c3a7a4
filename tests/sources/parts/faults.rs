//! Tests of the texts of faults.

use delegate_parts::Outcome;
use path_kinds::path::PathKind;
use search_context::context::{Fault, NoMemory};
use std::alloc::Global;
use std::fmt;
use std::test::Fail;

/// A fault of goals that are path kinds.
type KindFault = Fault<PathKind, Outcome>;

/// Faults with their texts.
const ROWS: [(KindFault, &str); 5] = [
    (Fault::Memory, "out of memory"),
    (
        Fault::Conflict {
            input: PathKind::Inductive,
            stored: Outcome::Yes,
            found: Outcome::No,
        },
        "another result is stored",
    ),
    (
        Fault::Validation {
            input: PathKind::Inductive,
            stored: Outcome::Yes,
            found: Outcome::No,
        },
        "validation gave another result",
    ),
    (Fault::Protocol(2), "request out of order: 2"),
    (Fault::Protocol(5), "request out of order: 5"),
];

#[test]
fn faults_have_their_texts(rt: HostRuntime) -> Result<(), Fail> {
    for (fault, wanted) in ROWS {
        let told = text_of(rt.alloc(), &fault)?;
        assert_eq!(rt; told.as_str(), wanted);
    }
    Ok(())
}

fn text_of<T: fmt::Display>(alloc: Global, shown: &T) -> Result<String, Fail> {
    Ok(format!(in alloc; "{shown}")?)
}

#[test]
fn no_memory_is_the_fault_of_memory(rt: HostRuntime) -> Result<(), Fail> {
    assert_eq!(rt; KindFault::from(NoMemory), Fault::Memory);
    let told = text_of(rt.alloc(), &NoMemory)?;
    assert_eq!(rt; told.as_str(), "out of memory");
    Ok(())
}
