//! Why questions come to maybe, and graphs of goals that have labels.

use search_context::path::PathKind;
use shown_graphs::{Cause, Form, NoProgress, causes_within, show_text};
use std::process::Abort;
use std::test::Fail;

/// Cycles of unknown kind, one of which is known by then, a goal that holds, one without depth, and one that rests on it.
const RULES: &str = "rule A = u:B\nrule B = i:A\nrule C =\nrule D = i:C\n
ask 4 A\nask 4 B\nask 4 C\nask 0 D\n";

#[test]
fn each_maybe_has_its_cause(rt: HostRuntime) -> Result<(), Fail> {
    let causes = causes_within::<8>(rt.alloc(), RULES.as_bytes())?;
    let [first, second, third, fourth] = causes.as_slice() else {
        return Err("so many questions are asked".into());
    };
    assert!(rt; matches!(first, Some(Cause::Cycle(PathKind::Unknown))));
    assert!(rt; matches!(second, Some(Cause::Cycle(PathKind::Unknown))));
    assert!(rt; third.is_none());
    assert!(rt; matches!(fourth, Some(Cause::Depth { .. })));
    Ok(())
}

#[test]
fn goals_are_called_by_their_labels(rt: HostRuntime) -> Result<(), Fail> {
    let alloc = rt.alloc();
    let mut label = Vec::new(alloc);
    label.extend_from_slice(b"List:Send")?;
    let mut out = Vec::new(alloc);
    let text = b"rule 0 = c:0 c:1\nrule 1 =\nask 4 0\n";
    let form = Form::Text { depth: 100 };
    let labels = [label];
    let is_well = show_text::<8, Vec<u8>, NoProgress>(
        alloc, form, text, &labels, &mut out, NoProgress,
    )?;
    assert!(rt; is_well);
    let wanted =
        "List:Send holds, by rule List:Send = c:List:Send c:1\n  List:Send again: the cycle is coinductive\n  1 1 holds, by rule 1 =\n\n";
    assert_eq!(rt; std::str::from_utf8(out.as_slice()), Ok(wanted));
    Ok(())
}
