// Raw pointers, of which a type of our own may be sent all the same.
struct Node<T> { item: T, next: *mut Node<T> }
struct Queue<T> { first: *const Node<T>, count: usize }
unsafe impl<T: Send> Send for Queue<T> {}
fn is_send<T: Send>() {}
fn is_sync<T: Sync>() {}
fn main() {
    is_send::<Node<i32>>();
    is_send::<Queue<i32>>();
    is_send::<Queue<Rc<i32>>>();
    is_send::<Queue<Queue<i32>>>();
    is_send::<Queue<Node<i32>>>();
    is_sync::<Queue<i32>>();
}
