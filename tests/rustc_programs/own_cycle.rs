// A trait that needs itself for the same type.
#![feature(rustc_attrs)]
trait Plain {}
#[rustc_coinductive] trait Marked {}
struct Of<T>(T);
impl<T> Plain for Of<T> where Self: Plain {}
impl<T> Marked for Of<T> where Self: Marked {}
fn is_plain<T: Plain>() {}
fn is_marked<T: Marked>() {}
fn main() {
    is_plain::<Of<i32>>();
    is_marked::<Of<i32>>();
    is_marked::<i32>();
    is_plain::<i32>();
}
