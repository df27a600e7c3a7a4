//! What `explain` says of goals that had all their runs, where these are fewer than the program's.

use shown_graphs::{Form, NoProgress, explain_within};
use std::alloc::Global;
use std::process::Abort;
use std::test::Fail;

/// With one run A is not stable: by a coinductive cycle it holds at first, and then N fails.
const RULES: &str =
    "rule A = c:A i:N\nask 4 A\nrule B = i:A\nask 4 B\nrule C = i:D\nrule D = c:D i:N\nask 4 C\nrule E = i:F\nask 0 E\n";

const SHOWN: &str = "A is overflow\n  A had its most runs\n\n\
B is maybe\n  cut off at i:A of B, which had no depth left, or A had its most runs before\n\n\
C is maybe\n  cut off at i:D of C: D had its most runs\n\n\
E is maybe\n  cut off at i:F of E, which had no depth left, or F had its most runs before\n\n";

#[test]
fn most_runs_are_told(rt: HostRuntime) {
    let mut out = Vec::new(rt.alloc());
    let mut err = Vec::new(rt.alloc());
    let status = status_within::<1>(rt.alloc(), RULES.as_bytes(), &mut out, &mut err);
    assert_eq!(rt; std::str::from_utf8(out.as_slice()), Ok(SHOWN));
    assert_eq!(rt; (status, err.len()), (0, 0));
}

/// The status of `explain` where a goal has so many runs at most.
fn status_within<const LIMIT: usize>(
    alloc: Global,
    input: &[u8],
    out: &mut Vec<u8>,
    err: &mut Vec<u8>,
) -> u8 {
    let form = Form::Text { depth: 100 };
    explain_within::<LIMIT, &[u8], Vec<u8>, &mut Vec<u8>, NoProgress>(
        alloc, form, input, out, err, NoProgress,
    )
}
