// In the body of a function its parameters are types of which no more is known than its bounds say.
#![feature(auto_traits, negative_impls)]
struct List<T>(T, Option<Box<List<T>>>);
struct Raw<T>(*const T);
struct Held<T>(Raw<T>);
trait A {}
trait B {}
impl<T: A> A for List<T> {}
impl<T: A> B for T {}
impl A for u8 {}
auto trait Safe {}
impl<T> !Safe for Raw<T> {}
fn is_a<T: A>(_: T) {}
fn is_b<T: B>(_: T) {}
fn is_safe<T: Safe>(_: T) {}
fn is_send<T: Send>(_: T) {}
fn is_a_too<T: A>() {}
fn is_safe_too<T: Safe>() {}
fn is_send_too<T: Send>() {}
fn bounded<T: A>(x: T, y: List<T>, z: u8) {
    is_a(x);
    is_a(y);
    is_a(z);
    is_b(x);
    is_b(y);
    is_a_too::<List<List<T>>>();
    is_safe(x);
    is_safe(y);
    is_send(x);
}
fn free<T>(x: T, y: List<T>, z: List<u8>) {
    is_a(x);
    is_a(y);
    is_b(y);
    is_b(z);
    is_safe(x);
    is_safe(y);
    is_safe(z);
    is_safe_too::<Held<T>>();
}
fn sendable<T: Send, U: Send + Safe>(x: List<T>, y: (T, U), z: Held<U>) {
    is_send(x);
    is_send(y);
    is_send(z);
    is_safe(x);
    is_safe(y);
    is_safe_too::<List<U>>();
    is_send_too::<Vec<(T, U)>>();
}
fn mixed<T, U: A>(x: T, y: U, z: (T, U)) where T: B + Safe, {
    is_a(x);
    is_b(x);
    is_a(y);
    is_b(y);
    is_safe(x);
    is_safe(y);
    is_safe(z);
}
