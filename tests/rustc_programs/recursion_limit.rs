// Types that are nested more and less deeply than the limit allows.
#![recursion_limit = "8"]
trait Plain {}
struct Of<T>(T);
impl<T: Plain> Plain for Of<T> {}
impl Plain for i32 {}
fn is_plain<T: Plain>() {}
fn main() {
    is_plain::<i32>();
    is_plain::<Of<Of<Of<i32>>>>();
    is_plain::<Of<Of<Of<Of<Of<Of<i32>>>>>>>();
    is_plain::<Of<Of<Of<Of<Of<Of<Of<i32>>>>>>>>();
    is_plain::<Of<Of<Of<Of<Of<Of<Of<Of<i32>>>>>>>>>();
    is_plain::<Of<Of<Of<Of<Of<Of<Of<Of<Of<i32>>>>>>>>>>();
    is_plain::<Of<Of<Of<Of<Of<Of<Of<Of<Of<Of<i32>>>>>>>>>>>();
    is_plain::<Of<Of<Of<Of<Of<Of<Of<Of<Of<Of<Of<Of<i32>>>>>>>>>>>>>();
    is_plain::<Of<Of<Of<Of<Of<Of<u8>>>>>>>();
    is_plain::<Of<Of<Of<Of<Of<Of<Of<Of<Of<Of<Of<Of<u8>>>>>>>>>>>>>();
}
