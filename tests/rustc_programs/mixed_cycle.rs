// Rounds through a marked trait and a plain one hold. The old solver does not let them.
#![feature(rustc_attrs)]
#[rustc_coinductive]
trait Marked {}
trait Plain {}
struct Of<T>(T);
struct By<T>(T);
impl<T> Marked for Of<T> where By<T>: Plain {}
impl<T> Plain for By<T> where Of<T>: Marked {}
impl<T> Marked for By<T> where Of<By<T>>: Plain, T: Plain {}
impl<T> Plain for Of<By<T>> where By<T>: Marked {}
impl Plain for u8 {}
fn is_marked<T: Marked>() {}
fn is_plain<T: Plain>() {}
fn main() {
    is_marked::<Of<i32>>();
    is_plain::<By<i32>>();
    is_marked::<By<u8>>();
    is_marked::<By<i8>>();
    is_plain::<Of<By<u8>>>();
    is_plain::<Of<By<i8>>>();
}
