// Where rustc is known to say otherwise. An impl of an auto trait for one array is for arrays of all lengths there; a
// function that takes a reference takes it with each lifetime, and no parameter of an impl stands for that; and a
// parameter without `?Sized` stands for no type without size.
#![feature(auto_traits, negative_impls)]
auto trait Auto {}
impl !Auto for [i32; 3] {}
trait Takes {}
impl<T> Takes for fn(T) {}
trait Points {}
impl<T> Points for &T {}
fn is_auto<T: Auto>() {}
fn takes<T: Takes>() {}
fn points<T: Points>() {}
// rustc: [u8; 4]: Auto no
// old rustc: [u8; 4]: Auto no
// rustc: fn(&i32): Takes no
// old rustc: fn(&i32): Takes no
// rustc: &str: Points no
// old rustc: &str: Points no
fn main() {
    is_auto::<[u8; 3]>();
    is_auto::<[u8; 4]>();
    takes::<fn(&i32)>();
    takes::<fn(i32)>();
    points::<&str>();
    points::<&u8>();
}
