// Lifetimes wherever they may stand: all are one.
struct Ref<'a, T: 'a + ?Sized>(&'a T);
struct Many<'a, 'b: 'a, T>(Ref<'a, T>, &'b mut T) where T: 'b;
trait Held {}
impl<'a, T: ?Sized> Held for Ref<'a, T> where T: Held + 'a {}
impl<'a, 'b: 'a, T: Held + 'b> Held for Many<'a, 'b, T> where 'b: 'a {}
impl Held for str {}
impl<'a> Held for &'a u8 {}
fn is_held<T: ?Sized + Held + 'static>() {}
fn main() {
    is_held::<Ref<'static, str>>();
    is_held::<Ref<'static, Ref<'static, str>>>();
    is_held::<Ref<'static, String>>();
    is_held::<Many<'static, 'static, &'static u8>>();
    is_held::<Many<'static, 'static, &'static i8>>();
    is_held::<&u8>();
}
