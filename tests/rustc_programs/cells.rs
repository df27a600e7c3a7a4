// Cells in structs.
struct Counter { count: Cell<u32> }
struct Log<T> { lines: RefCell<Vec<T>>, of: UnsafeCell<bool> }
struct Fixed<T>(UnsafeCell<T>);
unsafe impl<T: Sync> Sync for Fixed<T> {}
fn is_send<T: Send>() {}
fn is_sync<T: Sync>() {}
fn main() {
    is_send::<Counter>();
    is_sync::<Counter>();
    is_send::<Log<Counter>>();
    is_send::<Log<&Counter>>();
    is_sync::<Log<u8>>();
    is_sync::<Fixed<u8>>();
    is_sync::<Fixed<Counter>>();
    is_sync::<AtomicBool>();
}
