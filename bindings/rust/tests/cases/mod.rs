//! The runs of the original in `vectors/`, and rules of texts.
#![allow(dead_code)]
use mirfodwel::{Candidate, PathKind, Question, Rules};
use std::collections::HashMap;
use std::path::Path;

/// A case: an input, and what the programs say to it.
#[derive(Default)]
pub struct Case {
    pub name: String,
    pub input: Vec<u8>,
    pub status: u8,
    pub lines: String,
    pub errors: String,
}

impl Case {
    /// The questions of the input, in order: depth and name.
    pub fn questions(&self) -> Vec<(usize, String)> {
        let text = String::from_utf8_lossy(&self.input);
        let asked = text.lines().filter_map(|line| match line.split_whitespace().collect::<Vec<_>>()[..] {
            ["ask", depth, name] => Some((depth.parse().ok()?, name.to_string())),
            _ => None,
        });
        asked.collect()
    }
}

/// All cases, as `vectors/split.awk` splits them.
pub fn cases() -> Vec<Case> {
    let folder = Path::new(env!("CARGO_MANIFEST_DIR")).join("../../vectors");
    let mut files: Vec<_> = std::fs::read_dir(&folder).unwrap().map(|it| it.unwrap().path()).collect();
    files.retain(|it| it.extension().is_some_and(|it| it == "txt"));
    files.sort();
    assert!(!files.is_empty(), "there are vectors in {}", folder.display());
    files.iter().flat_map(|file| cases_of(&std::fs::read(file).unwrap())).collect()
}

fn cases_of(file: &[u8]) -> Vec<Case> {
    let mut cases = Vec::new();
    let mut lines = file.split(|it| *it == b'\n');
    while let Some(first) = lines.next() {
        let first = String::from_utf8_lossy(first);
        let words: Vec<_> = first.split_whitespace().collect();
        if words.first() != Some(&"case") {
            continue;
        }
        let mut case = Case { name: words[1].to_string(), ..Case::default() };
        let input: Vec<_> = lines.by_ref().map_while(|line| expected(&mut case, line)).collect();
        case.input = input.join(&b'\n');
        if !input.is_empty() && words.last() != Some(&"unended") {
            case.input.push(b'\n');
        }
        for line in lines.by_ref().take_while(|it| !it.is_empty()) {
            let line = String::from_utf8_lossy(line);
            match line.strip_prefix("! ") {
                Some(error) => case.errors += &format!("{error}\n"),
                None => case.lines += &format!("{line}\n"),
            }
        }
        cases.push(case);
    }
    cases
}

/// The line, if it is one of the input; of `expect` the case takes the status.
fn expected<'l>(case: &mut Case, line: &'l [u8]) -> Option<&'l [u8]> {
    let text = String::from_utf8_lossy(line);
    let status = text.split_whitespace().collect::<Vec<_>>();
    if status.first() != Some(&"expect") {
        return Some(line);
    }
    case.status = status[1].parse().unwrap();
    None
}

/// The rules of a text without faults, by names.
#[derive(Clone, Debug, Default)]
pub struct Named(pub HashMap<String, Vec<Candidate<String>>>);

impl Named {
    pub fn read(text: &[u8]) -> Named {
        let mut rules = Named::default();
        for line in String::from_utf8_lossy(text).lines() {
            let mut words = line.split_whitespace();
            if words.next() == Some("rule") {
                let name = words.next().unwrap();
                let questions = words.skip(1).map(|it| question(it.split_once(':').unwrap()));
                let candidate = Candidate { is_marked: name.starts_with('~'), questions: questions.collect() };
                rules.0.entry(name.trim_start_matches('~').to_string()).or_default().push(candidate);
            }
        }
        rules
    }

    /// The same rules as a text.
    pub fn text(&self) -> String {
        let mut text = String::new();
        for (name, candidates) in &self.0 {
            for candidate in candidates {
                text += &format!("rule {}{name} =", if candidate.is_marked { "~" } else { "" });
                for question in &candidate.questions {
                    text += &format!(" {}:{}", question.kind.letter(), question.goal);
                }
                text.push('\n');
            }
        }
        text
    }
}

fn question((kind, name): (&str, &str)) -> Question<String> {
    let kind = match kind {
        "i" => PathKind::Inductive,
        "u" => PathKind::Unknown,
        "c" => PathKind::Coinductive,
        "f" => PathKind::ForcedAmbiguity,
        _ => panic!("no kind {kind}"),
    };
    Question { kind, goal: name.to_string() }
}

impl Rules for Named {
    type Goal = String;

    fn candidates(&self, goal: &String) -> Vec<Candidate<String>> {
        self.0.get(goal).cloned().unwrap_or_default()
    }
}

/// Numbers that look random, always the same ones.
pub struct Numbers(pub u64);

impl Numbers {
    pub fn below(&mut self, end: usize) -> usize {
        self.0 ^= self.0 << 13;
        self.0 ^= self.0 >> 7;
        self.0 ^= self.0 << 17;
        (self.0 % end as u64) as usize
    }
}
