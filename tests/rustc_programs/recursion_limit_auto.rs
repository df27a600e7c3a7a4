// The same for an auto trait, where a field that fails decides beside one that is nested too deeply.
#![feature(auto_traits, negative_impls)]
#![recursion_limit = "6"]
struct Of<T>(T);
struct Two<A, B>(A, B);
struct Bad;
auto trait Auto {}
impl !Auto for Bad {}
fn is_auto<T: Auto>() {}
fn main() {
    is_auto::<Of<Of<Of<Of<i32>>>>>();
    is_auto::<Of<Of<Of<Of<Of<Of<Of<Of<Of<Of<i32>>>>>>>>>>>();
    is_auto::<Two<Of<Of<Of<Of<Of<Of<Of<Of<Of<Of<i32>>>>>>>>>>, Bad>>();
    is_auto::<Two<Bad, Of<Of<Of<Of<Of<Of<Of<Of<Of<Of<i32>>>>>>>>>>>>();
    is_auto::<Two<Of<i32>, Bad>>();
    is_auto::<Of<Of<Of<Of<Of<Of<Of<Of<Of<Of<Bad>>>>>>>>>>>();
}
