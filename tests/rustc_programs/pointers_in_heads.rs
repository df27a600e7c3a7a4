// Impls for references and pointers, of which each is a type of its own.
trait Ptr {}
struct End;
impl Ptr for End {}
impl<T: ?Sized + Ptr> Ptr for &T {}
impl<T: Ptr> Ptr for &mut &mut T {}
impl<T: Ptr> Ptr for *const T {}
impl Ptr for *mut End {}
fn is_ptr<T: Ptr>() {}
fn main() {
    is_ptr::<&End>();
    is_ptr::<&&&End>();
    is_ptr::<&mut End>();
    is_ptr::<&mut &mut End>();
    is_ptr::<&mut &mut &mut &mut End>();
    is_ptr::<&mut &mut &mut End>();
    is_ptr::<*const &*const End>();
    is_ptr::<*mut End>();
    is_ptr::<*mut *mut End>();
    is_ptr::<&*mut *const End>();
}
