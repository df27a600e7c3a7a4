// Types with many parameters.
struct Six<A, B, C, D, E, F> { a: A, b: Option<B>, c: Vec<C>, d: PhantomData<D>, e: *const E, f: fn(F) }
struct Five<A, B, C, D, F>(Six<A, B, C, D, u8, F>);
unsafe impl<A, B, C: Send, D: Send, F> Send for Five<A, B, C, D, F> {}
fn is_send<T: Send>() {}
fn is_sync<T: Sync>() {}
fn main() {
    is_send::<Six<u8, u8, u8, u8, u8, u8>>();
    is_send::<Five<u8, u8, u8, u8, u8>>();
    is_send::<Five<Rc<u8>, Rc<u8>, u8, u8, Rc<u8>>>();
    is_send::<Five<u8, u8, Rc<u8>, u8, u8>>();
    is_sync::<Five<u8, u8, u8, u8, u8>>();
}
