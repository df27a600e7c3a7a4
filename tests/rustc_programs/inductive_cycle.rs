// Two plain traits that need each other and don't end: nothing shows that they hold, and rustc overflows.
trait Chicken {}
trait Egg {}
struct Bird<T>(T);
impl<T: Egg> Chicken for Bird<T> where Bird<T>: Egg {}
impl<T> Egg for Bird<T> where Bird<T>: Chicken {}
impl Egg for i32 {}
fn is_chicken<T: Chicken>() {}
fn is_egg<T: Egg>() {}
fn main() {
    is_chicken::<Bird<i32>>();
    is_egg::<Bird<i32>>();
    is_chicken::<Bird<u8>>();
    is_egg::<Bird<u8>>();
}
