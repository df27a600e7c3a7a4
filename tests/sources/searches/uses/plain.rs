//! Subtypes without a search: all pairs are taken, and those that are not supported are struck out until nothing changes.

use crate::searches::uses::agreed::Asked;
use std::alloc::Global;
use std::test::Fail;
use structural_types::{Field, Form, Types};

/// Pairs of the first so many types.
#[derive(Drop)]
pub struct Pairs {
    size: usize,
    // Whether the pair is one of them: the pairs of the first left type, then those of the second, and so on.
    is_in: Vec<bool>,
}

impl Pairs {
    /// Whether the pair is one of them.
    pub fn has(&self, left: usize, right: usize) -> bool {
        let place = left.saturating_mul(self.size).saturating_add(right);
        self.is_in.get(place).copied().unwrap_or(false)
    }

    /// All pairs of the types, each with whether it is one of them, from the last left type on.
    pub fn asked(&self, alloc: Global) -> Result<Vec<Asked>, Fail> {
        let mut asked = Vec::new(alloc);
        for left in (0..self.size).rev() {
            for right in 0..self.size {
                asked.push((left, right, self.has(left, right)))?;
            }
        }
        Ok(asked)
    }

    /// How many there are.
    pub fn count(&self) -> usize {
        self.is_in.iter().filter(|is_in| **is_in).count()
    }
}

/// The pairs of which the left type is below the right one.
pub fn pairs_below(alloc: Global, types: &Types, size: usize) -> Result<Pairs, Fail> {
    let all = size.saturating_mul(size);
    let mut pairs = Pairs {
        size,
        is_in: Vec::from_elem(alloc, true, all)?,
    };
    // Each round but the last strikes out a pair.
    for _ in 0..=all {
        let left = supported(alloc, types, &pairs)?;
        if left.count() == pairs.count() {
            return Ok(pairs);
        }
        pairs = left;
    }
    Err("too many rounds")?
}

/// Those of the pairs that are supported by them.
fn supported(alloc: Global, types: &Types, pairs: &Pairs) -> Result<Pairs, Fail> {
    let mut is_in = Vec::new(alloc);
    for (place, was_in) in pairs.is_in.iter().enumerate() {
        let left = place.checked_div(pairs.size).unwrap_or(0);
        let right = place.checked_rem(pairs.size).unwrap_or(0);
        is_in.push(*was_in && is_supported(types, pairs, left, right))?;
    }
    Ok(Pairs {
        size: pairs.size,
        is_in,
    })
}

/// Any one of the reasons suffices.
fn is_supported(types: &Types, pairs: &Pairs, left: usize, right: usize) -> bool {
    let (Some(lower), Some(upper)) = (types.form(left), types.form(right)) else {
        return false;
    };
    let by_parts = match (lower, upper) {
        (Form::Bottom, _) | (_, Form::Top) => true,
        (Form::Base(word), Form::Base(other)) => *word == *other,
        (Form::Function(a, b), Form::Function(c, d)) => pairs.has(*c, *a) && pairs.has(*b, *d),
        (Form::Record(fields), Form::Record(others)) => {
            others
                .iter()
                .all(|other| has_lower(pairs, fields.as_slice(), *other))
        }
        _ => false,
    };
    let by_left = match lower {
        Form::Union(each) => each.iter().all(|part| pairs.has(*part, right)),
        _ => false,
    };
    let by_right = match upper {
        Form::Union(some) => some.iter().any(|part| pairs.has(left, *part)),
        _ => false,
    };
    by_parts || by_left || by_right
}

/// Whether a field of this name has a type below the other one's. No name stands twice here.
fn has_lower(pairs: &Pairs, fields: &[Field], other: Field) -> bool {
    fields.iter().any(|field| field.name == other.name && pairs.has(field.part, other.part))
}
