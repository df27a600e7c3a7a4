// Traits and impls that are marked as unsafe.
#![feature(auto_traits, negative_impls)]
unsafe trait Pod {}
unsafe impl Pod for u8 {}
unsafe impl<T: Pod> Pod for [T; 4] {}
unsafe impl<A: Pod, B> Pod for (A, B) where B: Pod {}
unsafe auto trait Still {}
struct Moving<T>(T);
struct Fixed<T>(Moving<T>);
impl<T> !Still for Moving<T> {}
unsafe impl<T: Pod> Still for Fixed<T> {}
fn is_pod<T: Pod>() {}
fn is_still<T: Still>() {}
fn main() {
    is_pod::<[[u8; 4]; 4]>();
    is_pod::<[[i8; 4]; 4]>();
    is_pod::<(u8, [u8; 4])>();
    is_pod::<(u8, [u8; 3])>();
    is_still::<Moving<u8>>();
    is_still::<Fixed<u8>>();
    is_still::<Fixed<i8>>();
}
