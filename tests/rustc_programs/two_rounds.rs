// A goal with a round of each kind: that of the plain trait alone decides.
#![feature(rustc_attrs)]
#[rustc_coinductive]
trait Marked {}
trait Plain {}
struct Of<T>(T);
struct By<T>(T);
impl<T> Plain for Of<T> where By<T>: Plain, By<T>: Marked {}
impl<T> Plain for By<T> where Of<T>: Plain {}
impl<T> Marked for By<T> where Of<T>: Plain {}
impl<T> Marked for Vec<T> where Vec<T>: Plain {}
impl<T> Plain for Vec<T> where Vec<T>: Marked {}
fn is_marked<T: Marked>() {}
fn is_plain<T: Plain>() {}
fn main() {
    is_plain::<Of<i32>>();
    is_plain::<By<i32>>();
    is_marked::<By<i32>>();
    is_plain::<Vec<i32>>();
    is_marked::<Vec<i32>>();
}
