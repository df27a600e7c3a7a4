// Values of types that are written, and what the body of a function may assume of its parameters.
unsafe auto trait Send {}
trait Super {}
trait Sub: Super {}
struct List<T>(T);
impl<T: Super> Super for List<T> {}
fn is_super<T: Super>(_: T) {}
fn is_send<T: Send>(_: T) {}
fn check<T: Sub, U: Send>(x: List<T>, y: List<U>, z: List<i32>) {
    is_super(x);
    is_send(x);
    is_send(y);
    is_super(z);
}
