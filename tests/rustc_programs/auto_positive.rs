// An impl of an auto trait takes the place of the fields, for all instances of the type.
#![feature(auto_traits, negative_impls)]
struct Raw;
struct Cage<T>(T, Raw);
struct Open<T>(T);
trait Tame {}
impl Tame for i32 {}
impl<T: Tame> Tame for Open<T> {}
auto trait Safe {}
impl !Safe for Raw {}
impl<T: Tame> Safe for Cage<T> {}
impl Safe for Open<Raw> {}
fn is_safe<T: Safe>() {}
fn main() {
    is_safe::<Cage<i32>>();
    is_safe::<Cage<u8>>();
    is_safe::<Cage<Open<i32>>>();
    is_safe::<Open<Raw>>();
    is_safe::<Open<i32>>();
    is_safe::<(i32, Raw)>();
    is_safe::<(i32, Cage<i32>)>();
}
