// A type that holds itself with larger and larger arguments.
struct Perfect<T> { item: T, next: Option<Box<Perfect<(T, T)>>> }
fn is_send<T: Send>() {}
fn main() {
    is_send::<Perfect<i32>>();
    is_send::<Perfect<Rc<i32>>>();
    is_send::<Box<Perfect<String>>>();
}
