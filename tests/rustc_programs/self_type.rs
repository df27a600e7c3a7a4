// `Self` in where-clauses is the type that the impl is for.
trait A {}
trait B {}
trait C {}
struct Of<T>(T);
struct Nest<T>(T);
impl<T> A for Of<T> where Self: B {}
impl<T: B> B for Of<T> {}
impl B for i32 {}
impl<T> C for Of<T> where Nest<Self>: C, Self: A {}
impl<T> C for Nest<Of<T>> where T: C {}
impl C for i32 {}
fn is_a<T: A>() {}
fn is_c<T: C>() {}
fn main() {
    is_a::<Of<i32>>();
    is_a::<Of<u8>>();
    is_a::<Of<Of<i32>>>();
    is_c::<Of<i32>>();
    is_c::<Of<Of<i32>>>();
    is_c::<Of<Of<bool>>>();
}
