// Bounds of parameters and where-clauses, of which all have to hold.
trait A {}
trait B {}
trait C {}
struct Of<T>(T);
impl A for u8 {}
impl B for u8 {}
impl A for i8 {}
impl B for Of<i8> {}
impl<T: A + B> C for Of<T> {}
impl<T> C for Vec<T> where T: A, Of<T>: B {}
impl<T, U: A> C for (T, U) where (U, T, u8): A, T: B + A + 'static {}
impl<T, U> A for (T, U, u8) where U: B, (T,): A {}
impl<T> A for (T,) {}
fn is_c<T: C>() {}
fn main() {
    is_c::<Of<u8>>();
    is_c::<Of<i8>>();
    is_c::<Vec<i8>>();
    is_c::<Vec<u8>>();
    is_c::<(u8, i8)>();
    is_c::<(i8, u8)>();
    is_c::<(u8, bool)>();
}
