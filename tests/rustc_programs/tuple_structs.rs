// Structs whose fields have no names.
struct Meters(f64);
struct Pair<A, B>(A, pub B);
struct Wrapped<T>(pub(crate) Pair<T, Option<T>>,);
fn is_send<T: Send>() {}
fn is_sync<T: Sync>() {}
fn main() {
    is_send::<Meters>();
    is_send::<Pair<Meters, char>>();
    is_send::<Wrapped<Pair<i32, Meters>>>();
    is_send::<Wrapped<Pair<i32, Rc<Meters>>>>();
    is_sync::<Wrapped<Cell<i32>>>();
    is_sync::<Wrapped<Meters>>();
}
