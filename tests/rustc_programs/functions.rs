// Types of functions, whose parts no auto trait asks about.
trait Action {}
impl Action for fn() {}
impl<A, B> Action for fn(A) -> B {}
impl<A: Copy> Action for fn(A, A) {}
fn is_action<T: Action>() {}
fn is_send<T: Send>() {}
fn main() {
    is_action::<fn()>();
    is_action::<fn() -> ()>();
    is_action::<fn() -> i32>();
    is_action::<fn(i32)>();
    is_action::<fn(i32) -> !>();
    is_action::<fn(i32, i32)>();
    is_action::<fn(String, String)>();
    is_action::<fn(i32, u8)>();
    is_send::<fn(Rc<i32>) -> Rc<u8>>();
    is_send::<Box<fn(*const u8)>>();
    is_send::<(fn(), Rc<i32>)>();
}
