// A type that holds itself with its arguments in another order: it comes back to itself after some steps.
struct Swap<A, B>(A, Option<Box<Swap<B, A>>>);
struct Turn<A, B, C> { item: A, next: Vec<Turn<B, C, A>> }
fn is_send<T: Send>() {}
fn main() {
    is_send::<Swap<i32, u8>>();
    is_send::<Swap<i32, Rc<u8>>>();
    is_send::<Turn<i32, u8, String>>();
    is_send::<Turn<i32, u8, *mut String>>();
    is_send::<Turn<i32, Swap<u8, bool>, ()>>();
}
