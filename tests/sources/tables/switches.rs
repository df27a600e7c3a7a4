//! Tables in which one goal needs more runs than any number that is chosen beforehand, where scripts stop early and
//! provisional entries are used. `docs/TWO_RUNS.md` says how it comes about.
//!
//! A run has the number of switches, with the options of the search. What its first goal comes to, and by how many frames, is
//! what rustc's own code comes to. The answers to all goals over one cache have to be shown by their graphs.

use crate::tables::cases::{Case, lines_of};
use early_scripts::EarlyDelegate;
use rule_tables::Rules;
use rule_tables::delegate::Table;
use std::alloc::Global;
use std::io::Write;
use std::test::Fail;

/// The rules that each table of the family has. `D` holds, and uses the result of `P`.
const COMMON: &str = "rule R = c:M
rule R = i:S
rule M = i:A
rule A = c:S
rule A = i:M
rule S = c:R i:P i:F
rule D = i:P
rule D =
";

/// What the first goal of the table comes to.
pub fn tell(alloc: Global, options: &str) -> Result<Vec<u8>, Fail> {
    let (switches, options) = options.split_once(' ').ok_or("no options")?;
    let text = text_of_family(alloc, switches.parse::<usize>()?)?;
    let rules = Rules::read(alloc, text.as_slice())?;
    tell_rules(alloc, options, &rules)
}

/// What the first goal of the rules comes to with these options.
fn tell_rules(alloc: Global, options: &str, rules: &Rules) -> Result<Vec<u8>, Fail> {
    match options {
        "limit 2" => tell_with::<2, 1>(alloc, rules),
        "limit 3" => tell_with::<3, 1>(alloc, rules),
        "limit 4" => tell_with::<4, 1>(alloc, rules),
        "limit 5" => tell_with::<5, 1>(alloc, rules),
        "limit 6" => tell_with::<6, 1>(alloc, rules),
        "limit 7" => tell_with::<7, 1>(alloc, rules),
        "limit 8" => tell_with::<8, 1>(alloc, rules),
        "limit 9" => tell_with::<9, 1>(alloc, rules),
        "limit 10" => tell_with::<10, 1>(alloc, rules),
        "limit 17" => tell_with::<17, 1>(alloc, rules),
        "limit 18" => tell_with::<18, 1>(alloc, rules),
        "limit 32" => tell_with::<32, 1>(alloc, rules),
        "limit 2 provisional off" => tell_with::<2, 0>(alloc, rules),
        _ => Err("other options")?,
    }
}

fn tell_with<const LIMIT: usize, const PROVISIONAL: usize>(
    alloc: Global,
    rules: &Rules,
) -> Result<Vec<u8>, Fail> {
    let cx = Table { lender: rules };
    let case = Case {
        rules,
        ways: "question",
        wanted: "",
    };
    let lines = lines_of::<Table<&Rules>, EarlyDelegate<&Rules, LIMIT, PROVISIONAL>>(
        alloc, cx, case,
    )?;
    let first = lines.as_slice().split(|byte| *byte == b'\n').next();
    Ok(first.ok_or("no answer")?.to_vec(alloc)?)
}

/// The table with so many switches, in which `P` needs two runs more than there are switches. It asks `R`, and then each
/// goal, at a depth that suffices for a hundred goals.
///
/// The switch `W` holds until it is asked by a coinductive step, which `Q` does, and never again after that. `N` is one that
/// does not outlast a run.
fn text_of_family(alloc: Global, switches: usize) -> Result<Vec<u8>, Fail> {
    let mut text = Vec::new(alloc);
    text.extend_from_slice(COMMON.as_bytes())?;
    for number in 1..=switches {
        write_candidate(&mut text, number)?;
        write_switch(&mut text, number)?;
    }
    if switches % 2 == 0 {
        write!(text, "rule P =")?;
        write_gates(&mut text, switches.saturating_add(1))?;
        write!(text, "\n")?;
    }
    write_questions(&mut text, switches)?;
    Ok(text)
}

/// The candidate of `P` that turns this switch: it holds for an odd one, and fails for an even one, as all after it then do.
fn write_candidate(text: &mut Vec<u8>, number: usize) -> Result<(), Fail> {
    write!(text, "rule P =")?;
    if number == 1 {
        write!(text, " i:D")?;
    }
    write_gates(text, number)?;
    write!(text, " i:W{number} i:Q{number}")?;
    if number % 2 == 0 {
        write!(text, " c:N{number}")?;
    }
    write!(text, "\n")?;
    Ok(())
}

/// The questions that fail once a candidate of an even switch before this one has come to its end in the same run.
fn write_gates(text: &mut Vec<u8>, number: usize) -> Result<(), Fail> {
    for gate in (2..number).step_by(2) {
        write!(text, " i:N{gate}")?;
    }
    Ok(())
}

fn write_switch(text: &mut Vec<u8>, number: usize) -> Result<(), Fail> {
    write!(text, "rule W{number} = c:W{number} i:A i:D\n")?;
    write!(text, "rule Q{number} = c:W{number}\nrule Q{number} =\n")?;
    if number % 2 == 0 {
        write!(text, "rule N{number} = c:N{number} i:D i:A\n")?;
    }
    Ok(())
}

fn write_questions(text: &mut Vec<u8>, switches: usize) -> Result<(), Fail> {
    for goal in ["R", "M", "A", "S", "P", "D", "F"] {
        write!(text, "ask 100 {goal}\n")?;
    }
    for number in 1..=switches {
        write!(text, "ask 100 W{number}\nask 100 Q{number}\n")?;
        if number % 2 == 0 {
            write!(text, "ask 100 N{number}\n")?;
        }
    }
    Ok(())
}
