//! Types that tests declare, as data.

use std::alloc::Global;
use std::test::Fail;
use structural_types::{Field, Form, Types};

/// What a type is, as in `Form`.
#[derive(Clone, Copy)]
pub enum Side {
    Base(u32),
    Top,
    Bottom,
    Function(usize, usize),
    /// The fields' names and types.
    Record(&'static [(u32, usize)]),
    Union(&'static [usize]),
}

/// Declares these types, which get the next numbers.
pub fn declare_all(alloc: Global, types: &mut Types, sides: &[Side]) -> Result<(), Fail> {
    for side in sides {
        declare(alloc, types, *side)?;
    }
    Ok(())
}

/// Declares a type. It has to have the next number, and to be found by it.
fn declare(alloc: Global, types: &mut Types, side: Side) -> Result<(), Fail> {
    let next = types.count();
    let number = types.declare(form_of(alloc, side)?)?;
    let is_found = match types.form(number) {
        Some(form) => is_form_of(form, side),
        None => false,
    };
    if number != next || !is_found {
        return Err("declared as another type")?;
    }
    Ok(())
}

fn form_of(alloc: Global, side: Side) -> Result<Form, Fail> {
    match side {
        Side::Base(word) => Ok(Form::Base(word)),
        Side::Top => Ok(Form::Top),
        Side::Bottom => Ok(Form::Bottom),
        Side::Function(argument, outcome) => Ok(Form::Function(argument, outcome)),
        Side::Record(fields) => record(alloc, fields),
        Side::Union(alternatives) => union(alloc, alternatives),
    }
}

fn record(alloc: Global, fields: &[(u32, usize)]) -> Result<Form, Fail> {
    let mut own = Vec::new(alloc);
    for (name, part) in fields {
        own.push(Field {
            name: *name,
            part: *part,
        })?;
    }
    Ok(Form::Record(own))
}

fn union(alloc: Global, alternatives: &[usize]) -> Result<Form, Fail> {
    let mut own = Vec::new(alloc);
    own.extend_from_slice(alternatives)?;
    Ok(Form::Union(own))
}

/// Whether the form is the one of the side, with as many fields.
fn is_form_of(form: &Form, side: Side) -> bool {
    match (form, side) {
        (Form::Base(word), Side::Base(other)) => *word == other,
        (Form::Top, Side::Top) | (Form::Bottom, Side::Bottom) => true,
        (Form::Function(a, b), Side::Function(c, d)) => *a == c && *b == d,
        (Form::Record(fields), Side::Record(others)) => fields.len() == others.len(),
        (Form::Union(parts), Side::Union(others)) => parts.as_slice() == others,
        _ => false,
    }
}
