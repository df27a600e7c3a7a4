// A struct without fields is a value by its name.
#![feature(auto_traits, negative_impls)]
struct One;
struct Two;
struct Of<T>(T);
trait A {}
auto trait Safe {}
impl !Safe for Two {}
impl A for One {}
impl<T: A> A for Of<T> {}
impl A for &Two {}
fn is_a<T: A>(_: T) {}
fn is_safe<T: Safe>(_: T) {}
fn has_a<T: A, U>(_: U, _: &T) where Of<U>: Safe {}
fn main() {
    is_a(One);
    is_a(Two);
    is_a(&One);
    is_a(&Two);
    is_safe(One);
    is_safe(&Two);
    is_safe::<Two>(Two);
    has_a(One, &One);
    has_a(Two, &One);
    has_a(One, &Two)
}
