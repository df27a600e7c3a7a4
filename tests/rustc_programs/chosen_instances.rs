// Impls for chosen instances of a type.
trait Kind {}
struct Of<T>(T);
impl Kind for Of<i32> {}
impl Kind for Of<Of<u8>> {}
impl<T: Kind> Kind for Of<Vec<T>> {}
impl Kind for bool {}
impl Kind for str {}
impl Kind for &str {}
fn is_kind<T: ?Sized + Kind>() {}
fn main() {
    is_kind::<Of<i32>>();
    is_kind::<Of<u8>>();
    is_kind::<Of<Of<u8>>>();
    is_kind::<Of<Of<i32>>>();
    is_kind::<Of<Vec<bool>>>();
    is_kind::<Of<Vec<u8>>>();
    is_kind::<Of<Vec<Of<Vec<bool>>>>>();
    is_kind::<str>();
    is_kind::<&'static str>();
    is_kind::<&mut str>();
}
