// Needs that grow have no end, for plain traits and for marked ones.
#![feature(rustc_attrs)]
trait Plain {}
#[rustc_coinductive]
trait Marked {}
struct Of<T>(T);
impl<T> Plain for Of<T> where Of<Of<T>>: Plain {}
impl<T> Marked for Of<T> where (Of<T>, Of<T>): Marked {}
impl<A, B> Marked for (A, B) where Of<A>: Marked, Of<B>: Marked {}
fn is_plain<T: Plain>() {}
fn is_marked<T: Marked>() {}
fn main() {
    is_plain::<Of<i32>>();
    is_plain::<i32>();
    is_marked::<Of<i32>>();
    is_marked::<(i32, u8)>();
}
