// Tuples, in heads and in questions.
#![feature(auto_traits, negative_impls)]
struct No;
trait Flat {}
impl Flat for () {}
impl Flat for i32 {}
impl<A: Flat> Flat for (A,) {}
impl<A: Flat, B: Flat> Flat for (A, B) {}
auto trait Auto {}
impl !Auto for No {}
fn is_flat<T: Flat>() {}
fn is_auto<T: Auto>() {}
fn main() {
    is_flat::<()>();
    is_flat::<(i32,)>();
    is_flat::<(i32)>();
    is_flat::<((i32,), ())>();
    is_flat::<(i32, i32, i32)>();
    is_flat::<(i32, (u8, i32))>();
    is_auto::<(i32, u8, (bool,), ())>();
    is_auto::<(i32, u8, (bool, No), ())>();
    is_auto::<(((((No,),),),),)>();
}
