//! Tests of sets of paths.

use crate::parts::told::Told;
use bitflags::Flags;
use path_kinds::path::{PathKind, PathsToNested};
use std::alloc::Global;
use std::test::Fail;

/// How a set of paths comes about, from sets that are told by their bits.
#[derive(Clone, Copy)]
enum Made {
    /// This set after one more step.
    ByStep(u8, PathKind),
    /// The paths of the first set, each followed by each path of the second.
    ByPaths(u8, u8),
    /// The flag of this name.
    Named(&'static str),
    /// These bits, if each is that of a flag.
    OfFlags(u8),
    /// These bits, whatever they are.
    OfBits(u8),
    /// All flags.
    Full,
}

/// What comes about: the bits, and what five calls for a kind of path give, where a dot is an answer of none.
const ROWS: [(&str, Made, &str); 12] = [
    (
        "a step raises a weaker path",
        Made::ByStep(9, PathKind::Unknown),
        "12 uc...",
    ),
    (
        "and all of them",
        Made::ByStep(31, PathKind::Coinductive),
        "24 cf...",
    ),
    (
        "and the path of no step",
        Made::ByStep(1, PathKind::Inductive),
        "2 i....",
    ),
    (
        "no path stays none",
        Made::ByStep(0, PathKind::ForcedAmbiguity),
        "0 .....",
    ),
    (
        "bits without a flag stay",
        Made::ByStep(0b1010_0011, PathKind::Unknown),
        "164 u....",
    ),
    (
        "each path is followed by each",
        Made::ByPaths(3, 10),
        "10 ic...",
    ),
    (
        "the path of no step is passed over",
        Made::ByPaths(3, 1),
        "0 .....",
    ),
    (
        "kinds rise, without the path of no step",
        Made::OfBits(0b0101_0011),
        "83 if...",
    ),
    ("flags have names", Made::Named("UNKNOWN"), "4 u...."),
    ("all flags", Made::Full, "31 iucf."),
    ("all flags are five bits", Made::OfFlags(31), "31 iucf."),
    ("a bit without a flag", Made::OfFlags(32), "none"),
];

#[test]
fn paths_are_as_told(rt: HostRuntime) -> Result<(), Fail> {
    for (name, made, wanted) in ROWS {
        let told = tell(rt.alloc(), paths_of(made)).text()?;
        assert_eq!(rt; told.as_str(), wanted, "{name}");
    }
    Ok(())
}

fn paths_of(made: Made) -> Option<PathsToNested> {
    match made {
        Made::ByStep(bits, step) => Some(of_bits(bits).extend_with(step)),
        Made::ByPaths(bits, more) => Some(of_bits(bits).extend_with_paths(of_bits(more))),
        Made::Named(name) => PathsToNested::from_name(name),
        Made::OfFlags(bits) => PathsToNested::from_bits(bits),
        Made::OfBits(bits) => Some(of_bits(bits)),
        Made::Full => Some(PathsToNested::all()),
    }
}

fn of_bits(bits: u8) -> PathsToNested {
    PathsToNested::from_bits_retain(bits)
}

fn tell(alloc: Global, paths: Option<PathsToNested>) -> Told {
    let mut told = Told::new(alloc);
    let Some(paths) = paths else {
        told.say("none");
        return told;
    };
    told.number("", usize::from(paths.bits()));
    told.say(" ");
    let mut kinds = paths.iter_paths();
    for _ in 0..5 {
        match kinds.next() {
            Some(kind) => told.kind("", kind),
            None => told.say("."),
        }
    }
    told
}
