// A round through an auto trait and a plain one.
#![feature(auto_traits, negative_impls)]
auto trait Auto {}
trait Plain {}
struct Hold<T>(T, Loop<T>);
struct Loop<T>(PhantomData<T>);
struct Bad;
impl !Auto for Bad {}
impl<T> Auto for Loop<T> where Hold<T>: Plain {}
impl<T> Plain for Hold<T> where Hold<T>: Auto {}
fn is_auto<T: Auto>() {}
fn is_plain<T: Plain>() {}
fn main() {
    is_auto::<Hold<i32>>();
    is_auto::<Hold<Bad>>();
    is_plain::<Hold<i32>>();
    is_plain::<Hold<Bad>>();
    is_auto::<Loop<u8>>();
    is_auto::<Loop<Bad>>();
}
