// Functions that ask more than one question.
trait Red {}
trait Green {}
struct Of<T>(T);
struct Plain;
impl Red for Plain {}
impl<T: Red> Green for Of<T> {}
fn both<T: Red + Green, U: Send>() where Of<T>: Green + Send, (U, T): Sync {}
fn only<T>() where Of<Of<T>>: Green {}
fn none<T, U>() {}
fn main() {
    both::<Plain, i32>();
    both::<Of<Plain>, Rc<i32>>();
    only::<Plain>();
    none::<Plain, Of<Plain>>();
}
fn others() { only::<Of<Plain>>(); }
