//! The letters of the kinds of steps.

use search_parts::path::PathKind;
use std::test::Fail;

/// The letter of a kind in a question.
pub fn letter_of(kind: PathKind) -> &'static str {
    match kind {
        PathKind::Inductive => "i",
        PathKind::Unknown => "u",
        PathKind::Coinductive => "c",
        PathKind::ForcedAmbiguity => "f",
    }
}

/// The kind of this letter.
pub fn kind_of(letter: &str) -> Result<PathKind, Fail> {
    Ok(match letter {
        "i" => PathKind::Inductive,
        "u" => PathKind::Unknown,
        "c" => PathKind::Coinductive,
        "f" => PathKind::ForcedAmbiguity,
        _ => Err("no kind")?,
    })
}
