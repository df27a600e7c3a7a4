// Copies of what is built in and of types of our own.
struct Point<T>(T, T);
fn is_copy<T: Copy>() {}
fn is_clone<T: Clone>() {}
fn main() {
    is_copy::<i32>();
    is_copy::<(i32, &'static str, [u8; 4])>();
    is_copy::<(i32, &'static mut str)>();
    is_clone::<&mut i32>();
    is_clone::<(String, Vec<i32>)>();
    is_copy::<(String, i32)>();
    is_copy::<*mut String>();
    is_copy::<fn(String) -> String>();
    is_clone::<Rc<Cell<i32>>>();
    is_clone::<Cell<&'static str>>();
    is_clone::<Cell<String>>();
    is_copy::<Option<Result<i32, ()>>>();
    is_copy::<PhantomData<String>>();
    is_clone::<Box<[String]>>();
    is_clone::<Box<dyn Send>>();
    is_copy::<Point<i32>>();
}
