// Comments, attributes and marks of visibility, wherever they may stand.
#![feature(auto_traits, negative_impls)]
#![allow(dead_code, unused)]
#[allow(dead_code)]
pub struct A { pub x: i32, pub(crate) y: /* a /* nested */ comment */ u8, z: (), }
#[allow(non_camel_case_types)]
pub(crate) enum b { pub_, // a name
    c(A,), }
pub unsafe auto trait Safe {}
unsafe impl Safe for A {}
impl !Safe for b {}
pub fn is_safe<T: Safe,>() where T: Send, {}
pub fn main() { is_safe::<A>(); /* and */ is_safe::<b,>(); is_safe::<(A, b,)>(); }
