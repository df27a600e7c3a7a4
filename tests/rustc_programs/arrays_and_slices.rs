// Arrays of different lengths, and slices behind pointers.
trait Bytes {}
impl Bytes for [u8] {}
impl Bytes for [u8; 3] {}
impl<T: Bytes> Bytes for [T; 2] {}
impl<T: ?Sized + Bytes> Bytes for &T {}
fn is_bytes<T: ?Sized + Bytes>() {}
fn is_send<T: ?Sized + Send>() {}
fn main() {
    is_bytes::<[u8; 3]>();
    is_bytes::<[u8; 4]>();
    is_bytes::<[[u8; 3]; 2]>();
    is_bytes::<[[u8; 2]; 2]>();
    is_bytes::<[u8]>();
    is_bytes::<&[u8]>();
    is_bytes::<[i8]>();
    is_bytes::<&&[[u8; 3]; 2]>();
    is_send::<[Rc<u8>; 3]>();
    is_send::<[Arc<u8>; 3]>();
    is_send::<Box<[[u8; 7]]>>();
}
