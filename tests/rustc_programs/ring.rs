// Three types that lead round, with an exit from each.
#![feature(auto_traits, negative_impls)]
struct A<T, U>(*const B<T, U>, T);
struct B<T, U>(*const C<T, U>, *const U);
struct C<T, U>(*const A<T, U>, (T, U));
struct Bad;
auto trait Clean {}
impl !Clean for Bad {}
fn is_clean<T: Clean>() {}
fn main() {
    is_clean::<A<i32, i32>>();
    is_clean::<B<i32, i32>>();
    is_clean::<C<i32, i32>>();
    is_clean::<A<Bad, i32>>();
    is_clean::<A<i32, Bad>>();
    is_clean::<B<A<i32, i32>, C<u8, Bad>>>();
    is_clean::<B<A<i32, i32>, C<u8, u8>>>();
}
