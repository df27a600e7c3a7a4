// Impls for types of objects, and blanket impls that hold of them.
trait Named {}
trait Loud {}
trait Quiet {}
trait Any {}
impl Named for dyn Loud {}
impl Named for dyn Loud + Send {}
impl<T: ?Sized + Named> Quiet for T {}
impl<T: ?Sized> Any for T {}
fn is_named<T: ?Sized + Named>() {}
fn is_quiet<T: ?Sized + Quiet>() {}
fn is_any<T: ?Sized + Any>() {}
fn main() {
    is_named::<dyn Loud>();
    is_named::<dyn Loud + Send>();
    is_named::<dyn Send + Loud>();
    is_named::<dyn Loud + Sync>();
    is_named::<dyn Quiet>();
    is_quiet::<dyn Loud>();
    is_quiet::<dyn Loud + Sync>();
    is_quiet::<dyn Named>();
    is_any::<dyn Named>();
    is_any::<str>();
}
