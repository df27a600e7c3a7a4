// An auto trait with negative impls for a struct, for all instances of one, and for pointers.
#![feature(auto_traits, negative_impls)]
struct Secret;
struct Guard<T>(T);
struct Plain<T>(T);
auto trait Public {}
impl !Public for Secret {}
impl<T> !Public for Guard<T> {}
impl<T: ?Sized> !Public for *mut T {}
fn is_public<T: ?Sized + Public>() {}
fn main() {
    is_public::<Plain<i32>>();
    is_public::<Plain<Secret>>();
    is_public::<Guard<i32>>();
    is_public::<Plain<Guard<()>>>();
    is_public::<*mut i32>();
    is_public::<*const i32>();
    is_public::<*const Secret>();
    is_public::<[Plain<u8>]>();
    is_public::<[Secret]>();
}
