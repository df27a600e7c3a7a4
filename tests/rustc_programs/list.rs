// A list that holds itself behind a pointer.
struct List<T> { item: T, next: Option<Box<List<T>>> }
fn is_send<T: Send>() {}
fn is_sync<T: Sync>() {}
fn main() {
    is_send::<List<i32>>();
    is_send::<List<Rc<i32>>>();
    is_sync::<List<Cell<i32>>>();
    is_sync::<List<Mutex<Cell<i32>>>>();
}
