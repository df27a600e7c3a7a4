// A graph whose nodes point at each other through all kinds of pointers.
struct Node<T> { item: T, edges: Vec<Edge<T>>, first: Option<Box<Node<T>>> }
struct Edge<T> { to: Arc<Node<T>>, label: &'static str, back: Option<Arc<Edge<T>>> }
struct Local<T> { node: Node<T>, shared: Rc<Local<T>> }
fn is_send<T: Send>() {}
fn is_sync<T: Sync>() {}
fn main() {
    is_send::<Node<i32>>();
    is_sync::<Edge<i32>>();
    is_send::<Edge<Cell<i32>>>();
    is_send::<Node<Mutex<Cell<i32>>>>();
    is_send::<Local<i32>>();
    is_send::<Arc<Mutex<Node<Edge<u8>>>>>();
}
