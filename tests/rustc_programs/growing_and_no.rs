// Needs that grow, and one that fails at once, or after some steps: it is no wherever the growth leads.
trait Plain {}
trait Last {}
struct Of<T>(T);
struct First<T>(T);
struct Few<T>(T);
impl<T> Plain for Of<T> where Of<Of<T>>: Plain {}
impl<T> Plain for First<T> where T: Last, Of<T>: Plain {}
impl<T> Last for Few<T> where T: Last {}
impl Last for u8 {}
fn is_plain<T: Plain>() {}
fn main() {
    is_plain::<First<i32>>();
    is_plain::<First<u8>>();
    is_plain::<First<Few<Few<i32>>>>();
    is_plain::<First<Few<Few<u8>>>>();
}
