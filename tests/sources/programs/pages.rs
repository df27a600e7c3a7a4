//! Pages of `explain` with a question that met a fault among others. While there is memory no text leads to one, so the
//! pages are made here of what questions came to.

use crate::programs::faults::faults_of;
use delegate_parts::Outcome;
use graph_pages::{Came, Form, Page};
use graph_texts::Labelled;
use rule_tables::{Goal, Rules};
use search_parts::context::Fault;
use std::alloc::Global;
use std::process::Abort;
use std::test::Fail;
use watched_runs::Reason;

const RULES: &str = "rule A = i:B\nask 4 A\n";

/// The answers are told in order, and the one that is missing is the fault's.
const DATA: &str = "{\"rules\":[\"rule A = i:B\",\"ask 4 A\"],\"answers\":[\
{\"goal\":\"A\",\"verdict\":\"maybe\",\"nodes\":[]},{\"goal\":\"A\",\"verdict\":\"overflow\",\"nodes\":[]}]}\n";

/// The clusters before the legend have the questions' numbers.
const CLUSTERS: &str = "  edge [fontname=\"sans-serif\"];
  subgraph cluster_0 {
    label=\"A maybe\";
    n0_0 [label=\"A\", shape=diamond];
  }
  subgraph cluster_2 {
    label=\"A overflow\";
    n2_0 [label=\"A\", shape=hexagon];
  }
  subgraph cluster_legend {
";

#[test]
fn faults_stand_among_answers(rt: HostRuntime) -> Result<(), Fail> {
    let alloc = rt.alloc();
    let rules = Rules::read(alloc, RULES.as_bytes())?;
    let goal = rules.goal(b"A").ok_or("no goal")?;
    for (fault, word) in faults_of(goal) {
        let wanted = format!(in alloc;
            "A is maybe\n  A was worked out before\n\nA fault {word}\n\nA is overflow\n  A had its most runs\n\n"
        )?;
        let text = page_with(alloc, Form::Text { depth: 100 }, &rules, goal, fault)?;
        assert_eq!(rt; std::str::from_utf8(text.as_slice()), Ok(wanted.as_str()));
        let data = page_with(alloc, Form::Data, &rules, goal, fault)?;
        assert_eq!(rt; std::str::from_utf8(data.as_slice()), Ok(DATA));
        let dot = page_with(alloc, Form::Dot, &rules, goal, fault)?;
        let dot = std::str::from_utf8(dot.as_slice())?;
        assert!(rt; dot.contains(CLUSTERS), "{dot}");
    }
    Ok(())
}

/// The page in this form about three questions of the goal, which came to maybe, to this fault and to overflow.
fn page_with(
    alloc: Global,
    form: Form,
    rules: &Rules,
    goal: Goal,
    fault: Fault<Goal, Outcome>,
) -> Result<Vec<u8>, Fail> {
    let mut out = Vec::new(alloc);
    let mut page = Page::new(alloc, form, RULES.as_bytes())?;
    let answers = [
        Came::NoGraph {
            outcome: Outcome::Maybe,
            reason: Reason::Known,
        },
        Came::Fault(fault),
        Came::NoGraph {
            outcome: Outcome::Overflow,
            reason: Reason::Runs,
        },
    ];
    let shown = Labelled { rules, labels: &[] };
    for came in &answers {
        page.add(alloc, shown, goal, came)?;
        page.pass_on(&mut out)?;
    }
    page.finish(&mut out)?;
    Ok(out)
}
