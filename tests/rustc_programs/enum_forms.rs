// Each form of a variant, with a field that is not sent in one of them.
enum First<T> { A(T), B, C { x: i32 } }
enum Second<T> { A(i32), B, C { x: T, y: u8 } }
enum Third<T> { A, B(PhantomData<T>, String), C(u8) }
fn is_send<T: Send>() {}
fn main() {
    is_send::<First<i32>>();
    is_send::<First<Rc<i32>>>();
    is_send::<Second<u8>>();
    is_send::<Second<*const u8>>();
    is_send::<Third<Vec<u8>>>();
    is_send::<Third<Rc<u8>>>();
}
