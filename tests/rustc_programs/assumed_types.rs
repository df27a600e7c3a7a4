// Where-clauses of types in which a parameter stands: they hold of these types alone, and take the fields of no others away.
#![feature(auto_traits, negative_impls)]
struct Of<T>(T);
struct Two<T, U>(T, U);
struct Raw<T>(T);
auto trait Safe {}
impl<T> !Safe for Raw<T> {}
trait A {}
trait B {}
impl<T: A> A for Of<T> {}
impl<T> B for T where Of<T>: A {}
impl A for u8 {}
fn is_a<T: A>(_: T) {}
fn is_b<T: B>(_: T) {}
fn is_safe<T: Safe>(_: T) {}
fn of_raw<T>(x: Raw<T>, y: Raw<u8>, z: Of<Raw<T>>, u: Of<u8>) where Raw<T>: Safe {
    is_safe(x);
    is_safe(y);
    is_safe(z);
    is_safe(u);
}
fn of_fields<T, U>(x: Of<T>, y: Of<U>, z: Of<u8>, u: Two<Of<T>, u8>, v: Of<Of<T>>) where Of<T>: Safe, {
    is_safe(x);
    is_safe(y);
    is_safe(z);
    is_safe(u);
    is_safe(v);
}
fn of_impls<T, U>(x: Of<T>, y: Of<U>, z: Of<Of<T>>, t: T, u: U, n: u8) where Of<T>: A, U: Safe {
    is_a(x);
    is_a(y);
    is_a(z);
    is_a(t);
    is_b(t);
    is_b(u);
    is_b(n);
    is_b(x);
}
fn of_others<T: 'static, U>(x: (T, U), y: (U, T), z: Two<T, U>, t: &'static T, v: [T; 2], w: [T; 3])
where
    (T, U): A,
    Two<T, T>: A,
    [T; 2]: B,
    &'static T: A,
{
    is_a(x);
    is_a(y);
    is_a(z);
    is_a(t);
    is_b(v);
    is_b(w);
}
