// Two types that hold each other, and a third one beside.
struct Forest<T> { trees: Vec<Rose<T>> }
struct Rose<T> { item: T, below: Forest<T>, mark: Mark<Rose<T>> }
struct Mark<T>(PhantomData<T>);
fn is_send<T: Send>() {}
fn is_sync<T: Sync>() {}
fn main() {
    is_send::<Forest<i32>>();
    is_sync::<Forest<i32>>();
    is_send::<Rose<Rc<i32>>>();
    is_send::<Rose<Cell<i32>>>();
    is_sync::<Rose<Cell<i32>>>();
    is_sync::<Forest<Mutex<Cell<i32>>>>();
}
