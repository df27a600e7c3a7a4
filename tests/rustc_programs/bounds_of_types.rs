// Bounds and where-clauses of types say nothing of who implements what.
trait Key {}
impl Key for i32 {}
impl Key for Cell<i32> {}
struct Table<K: Key, V> where V: Clone { keys: Vec<K>, values: Vec<V> }
enum Either<A: Key, B> where B: Key { Left(A), Right(B) }
struct Only<K: Key>(K) where Option<K>: Clone;
impl<K: Key, V: Clone> Key for Table<K, V> {}
fn is_key<T: Key>() {}
fn is_sync<T: Sync>() {}
fn main() {
    is_key::<Table<i32, u8>>();
    is_sync::<Table<i32, u8>>();
    is_sync::<Table<Cell<i32>, u8>>();
    is_sync::<Either<i32, i32>>();
    is_sync::<Either<i32, Cell<i32>>>();
    is_key::<Either<i32, i32>>();
    is_sync::<Only<i32>>();
}
