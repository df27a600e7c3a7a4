// Cycles of traits for types of parameters, and where what is assumed ends them.
#![feature(auto_traits, negative_impls, rustc_attrs)]
struct List<T>(T, Option<Box<List<T>>>);
struct Ring<T>(Vec<Ring<T>>, T);
struct Grow<T>(T, Option<Box<Grow<(T, T)>>>);
trait A {}
trait B {}
impl<T> A for List<T> where List<T>: B {}
impl<T> B for List<T> where List<T>: A {}
#[rustc_coinductive]
trait C {}
impl<T> C for Ring<T> where Ring<T>: C, T: C {}
auto trait Safe {}
impl<T> !Safe for *const T {}
fn is_a<T: A>(_: T) {}
fn is_b<T: B>(_: T) {}
fn is_c<T: C>(_: T) {}
fn is_safe<T: Safe>(_: T) {}
fn is_send<T: Send>(_: T) {}
fn is_safe_too<T: Safe>() {}
fn is_send_too<T: Send>() {}
fn without<T>(x: List<T>, y: Ring<T>) {
    is_a(x);
    is_b(x);
    is_c(y);
    is_safe(x);
    is_send(y);
}
fn with<T: Safe + Send + C>(x: List<T>, y: Ring<T>) where List<T>: A {
    is_a(x);
    is_b(x);
    is_c(y);
    is_safe(x);
    is_safe(y);
    is_send(x);
    is_send(y);
}
fn with_ring<T>(y: Ring<T>, z: Ring<u8>) where Ring<T>: C + Safe {
    is_c(y);
    is_c(z);
    is_safe(y);
    is_safe(z);
    is_send(y);
    is_send(z);
}
fn growing<T>() where Grow<(T, T)>: Safe, T: Safe + Send {
    is_safe_too::<Grow<T>>();
    is_safe_too::<Grow<u8>>();
    is_send_too::<Grow<T>>();
}
