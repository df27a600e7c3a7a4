// The type without values.
#![feature(never_type)]
trait Absurd {}
impl Absurd for ! {}
impl<T: Absurd> Absurd for Option<T> {}
enum Void {}
fn is_absurd<T: Absurd>() {}
fn is_send<T: Send>() {}
fn main() {
    is_absurd::<!>();
    is_absurd::<Option<!>>();
    is_absurd::<Void>();
    is_absurd::<fn() -> !>();
    is_send::<!>();
    is_send::<Result<!, Rc<i32>>>();
    is_send::<Vec<(Void, !)>>();
}
