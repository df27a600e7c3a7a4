// Auto traits of our own look into std's types.
#![feature(auto_traits, negative_impls)]
auto trait NoPointer {}
impl<T: ?Sized> !NoPointer for *const T {}
auto trait NoCell {}
impl<T: ?Sized> !NoCell for UnsafeCell<T> {}
auto trait NoReference {}
impl<T: ?Sized> !NoReference for &T {}
impl<T: ?Sized> !NoReference for &mut T {}
fn has_no_pointer<T: NoPointer>() {}
fn has_no_cell<T: NoCell>() {}
fn has_no_reference<T: NoReference>() {}
fn main() {
    has_no_pointer::<Option<(i32, bool)>>();
    has_no_pointer::<Vec<i32>>();
    has_no_pointer::<Cell<PhantomData<&'static u8>>>();
    has_no_pointer::<String>();
    has_no_cell::<Box<i32>>();
    has_no_cell::<Box<Cell<i32>>>();
    has_no_cell::<Rc<i32>>();
    has_no_cell::<Mutex<i32>>();
    has_no_cell::<Vec<Result<u8, ()>>>();
    has_no_reference::<Vec<Box<str>>>();
    has_no_reference::<Vec<Box<&'static str>>>();
    has_no_reference::<PhantomData<&mut i32>>();
}
