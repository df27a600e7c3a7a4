//! What is told of paths and usages: a letter for each kind of path, and the counts before these.

use bitflags::Flags;
use cycle_heads::heads::CycleHead;
use cycle_heads::usages::HeadUsages;
use delegate_parts::Outcome;
use path_kinds::memory::NoMemory;
use path_kinds::path::{PathKind, PathsToNested};
use std::alloc::Global;
use std::fmt::Write;

/// The kinds of paths. In these tests they are the goals, too.
pub const KINDS: [PathKind; 4] = [
    PathKind::Inductive,
    PathKind::Unknown,
    PathKind::Coinductive,
    PathKind::ForcedAmbiguity,
];

/// How often a head was used, by the kinds in their order.
pub type Counts = [u32; 4];

/// The usages with these counts.
pub fn usages_of(counts: Counts) -> HeadUsages {
    let [inductive, unknown, coinductive, forced_ambiguity] = counts;
    HeadUsages {
        inductive,
        unknown,
        coinductive,
        forced_ambiguity,
    }
}

/// What is told of a row. No call fails, so that those who tell have little to say of memory.
#[derive(Drop)]
pub struct Told {
    text: String,
    /// Whether there was no memory for some of it.
    is_cut: bool,
}

impl Told {
    /// Nothing is told yet.
    pub fn new(alloc: Global) -> Told {
        Told {
            text: String::new(alloc),
            is_cut: false,
        }
    }

    /// All that was told, if there was memory for it.
    pub fn text(self) -> Result<String, NoMemory> {
        if self.is_cut {
            return Err(NoMemory);
        }
        Ok(self.text)
    }

    /// Tells this word.
    pub fn say(&mut self, word: &str) {
        if self.text.push_str(word).is_err() {
            self.is_cut = true;
        }
    }

    /// Tells a word and a number.
    pub fn number(&mut self, word: &str, number: usize) {
        if write!(self.text, "{word}{number}").is_err() {
            self.is_cut = true;
        }
    }

    /// Tells a word and an outcome.
    pub fn outcome(&mut self, word: &str, outcome: Outcome) {
        if write!(self.text, "{word}{outcome}").is_err() {
            self.is_cut = true;
        }
    }

    /// Tells a word and the letter of a kind, or of the goal that is this kind.
    pub fn kind(&mut self, word: &str, kind: PathKind) {
        self.say(word);
        self.say(match kind {
            PathKind::Inductive => "i",
            PathKind::Unknown => "u",
            PathKind::Coinductive => "c",
            PathKind::ForcedAmbiguity => "f",
        });
    }

    /// Tells a word and the letters of the paths, where `e` is the path of no step; a dash where there are none.
    pub fn paths(&mut self, word: &str, paths: PathsToNested) {
        self.say(word);
        if paths == PathsToNested::empty() {
            self.say("-");
        }
        self.path(paths, PathsToNested::EMPTY, "e");
        self.path(paths, PathsToNested::INDUCTIVE, "i");
        self.path(paths, PathsToNested::UNKNOWN, "u");
        self.path(paths, PathsToNested::COINDUCTIVE, "c");
        self.path(paths, PathsToNested::FORCED_AMBIGUITY, "f");
    }

    /// Tells the letter of a path, if it is one of these.
    fn path(&mut self, paths: PathsToNested, path: PathsToNested, letter: &str) {
        if paths.contains(path) {
            self.say(letter);
        }
    }

    /// Tells a word and the counts that are not zero; a dash where all are.
    pub fn usages(&mut self, word: &str, usages: HeadUsages) {
        self.say(word);
        if usages == HeadUsages::default() {
            self.say("-");
        }
        self.count(usages.inductive, "i");
        self.count(usages.unknown, "u");
        self.count(usages.coinductive, "c");
        self.count(usages.forced_ambiguity, "f");
    }

    /// Tells a word, the paths to a head, and how often it was used.
    pub fn head(&mut self, word: &str, head: CycleHead) {
        self.paths(word, head.paths_to_head);
        self.usages(" ", head.usages);
    }

    /// Tells a count, unless it is zero.
    fn count(&mut self, count: u32, letter: &str) {
        if count > 0 {
            self.number("", count as usize);
            self.say(letter);
        }
    }
}
