// What stands in PhantomData counts as if it were held.
struct Tag<T: ?Sized>(PhantomData<T>);
struct Maker<T>(PhantomData<fn() -> T>);
struct Taker<T>(PhantomData<fn(T)>);
fn is_send<T: Send>() {}
fn is_sync<T: Sync>() {}
fn main() {
    is_send::<Tag<i32>>();
    is_send::<Tag<Rc<i32>>>();
    is_send::<Tag<str>>();
    is_send::<Maker<Rc<i32>>>();
    is_sync::<Taker<Cell<Rc<i32>>>>();
    is_sync::<Tag<Cell<i32>>>();
    is_send::<Tag<Tag<*const u8>>>();
}
