// Types without a known size, where bounds allow them.
struct Tail<T: ?Sized> { count: usize, tail: T }
struct Ptr<T: ?Sized>(Box<T>);
trait Text {}
impl Text for str {}
impl<T: ?Sized + Text> Text for Tail<T> {}
impl<T: ?Sized> Text for Ptr<T> where T: Text {}
fn is_text<T: ?Sized + Text>() {}
fn is_send<T: ?Sized + Send>() {}
fn is_sized<T: ?Sized>() where T: Sized {}
fn main() {
    is_text::<str>();
    is_text::<Tail<str>>();
    is_text::<Tail<[u8]>>();
    is_text::<Ptr<Tail<str>>>();
    is_send::<Tail<dyn Text>>();
    is_send::<Tail<dyn Text + Send>>();
    is_sized::<Tail<str>>();
    is_sized::<Tail<u8>>();
    is_sized::<Ptr<str>>();
    is_sized::<dyn Text>();
    is_sized::<&dyn Text>();
    is_sized::<[u8; 4]>();
}
