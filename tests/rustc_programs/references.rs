// References: one that is shared is sent if what it points to is shared, another one if that is sent.
struct View<'a, T> { of: &'a T }
struct Edit<'a, T> { of: &'a mut T }
struct Both<'a, 'b, T, U>(View<'a, T>, Edit<'b, U>);
fn is_send<T: Send>() {}
fn is_sync<T: Sync>() {}
fn main() {
    is_send::<View<'static, i32>>();
    is_send::<View<'_, Cell<i32>>>();
    is_send::<View<RefCell<i32>>>();
    is_send::<Edit<Cell<i32>>>();
    is_sync::<Edit<Cell<i32>>>();
    is_send::<Both<'static, 'static, i32, Cell<u8>>>();
    is_send::<Both<'static, 'static, Cell<u8>, i32>>();
    is_sync::<&'static mut Edit<String>>();
    is_send::<&&&&i32>();
    is_send::<&&&&Cell<i32>>();
    is_send::<&mut &Mutex<Cell<i32>>>();
}
