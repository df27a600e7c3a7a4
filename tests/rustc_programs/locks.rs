// Locks around cells, pointers and each other.
struct Account { name: String, sum: Mutex<i64> }
struct Bank { accounts: RwLock<HashMap<String, Arc<Account>>> }
struct Draft { lines: RefCell<Vec<String>>, bank: Rc<Bank> }
fn is_send<T: Send>() {}
fn is_sync<T: Sync>() {}
fn main() {
    is_send::<Account>();
    is_sync::<Bank>();
    is_send::<Bank>();
    is_send::<Draft>();
    is_sync::<Mutex<Draft>>();
    is_send::<MutexGuard<'static, Bank>>();
    is_sync::<MutexGuard<'static, Bank>>();
    is_sync::<RwLock<RefCell<u8>>>();
    is_sync::<Mutex<RefCell<u8>>>();
    is_send::<Arc<RwLock<Vec<Bank>>>>();
}
