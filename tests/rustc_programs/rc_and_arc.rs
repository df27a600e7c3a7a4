// Counted pointers: an Arc is sent if what it holds is both sent and shared.
struct Shared<T>(Arc<T>);
struct Local<T>(Rc<T>);
fn is_send<T: Send>() {}
fn is_sync<T: Sync>() {}
fn main() {
    is_send::<Shared<i32>>();
    is_send::<Local<i32>>();
    is_send::<Shared<Cell<i32>>>();
    is_send::<Shared<Mutex<Cell<i32>>>>();
    is_sync::<Shared<RwLock<i32>>>();
    is_sync::<Shared<RwLock<Cell<i32>>>>();
    is_send::<Arc<Arc<Arc<bool>>>>();
    is_send::<Arc<Arc<Rc<bool>>>>();
    is_send::<Arc<str>>();
    is_send::<Arc<dyn Send>>();
    is_send::<Arc<dyn Send + Sync>>();
}
