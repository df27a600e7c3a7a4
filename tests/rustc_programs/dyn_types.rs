// Types of objects implement what they name, and what stands above that.
trait Shape {}
trait Round: Shape {}
trait Rolling: Round + Send {}
trait Other {}
impl<T: ?Sized + Round> Other for Box<T> {}
fn is_shape<T: ?Sized + Shape>() {}
fn is_round<T: ?Sized + Round>() {}
fn is_other<T: ?Sized + Other>() {}
fn is_send<T: ?Sized + Send>() {}
fn is_sync<T: ?Sized + Sync>() {}
fn main() {
    is_shape::<dyn Shape>();
    is_shape::<dyn Round>();
    is_shape::<dyn Rolling>();
    is_round::<dyn Shape>();
    is_round::<dyn Rolling + Sync>();
    is_other::<Box<dyn Rolling>>();
    is_other::<Box<dyn Shape>>();
    is_send::<dyn Shape>();
    is_send::<dyn Rolling>();
    is_send::<dyn Shape + Send>();
    is_send::<Box<dyn Round + Sync + Send>>();
    is_sync::<Box<dyn Round + Send>>();
    is_sync::<dyn Sync + Send + 'static>();
    is_send::<Vec<Box<dyn Shape>>>();
}
