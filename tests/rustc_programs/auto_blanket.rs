// An impl of an auto trait for a parameter alone: in rustc no type has it by its fields then.
#![feature(auto_traits, negative_impls)]
auto trait Auto {}
trait Plain {}
struct Of<T>(T);
impl Plain for Of<u8> {}
impl<T: Plain> Auto for T {}
fn is_auto<T: Auto>() {}
// rustc: Of<i8>: Auto no
// old rustc: Of<i8>: Auto no
// rustc: i32: Auto no
// old rustc: i32: Auto no
fn main() {
    is_auto::<Of<u8>>();
    is_auto::<Of<i8>>();
    is_auto::<i32>();
}
