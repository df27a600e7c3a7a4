// Parameters behind pointers and in types of functions, and lifetimes beside them.
#![feature(auto_traits, negative_impls)]
struct Shared<'a, T>(&'a T);
struct Owned<T: ?Sized>(Box<T>);
trait A {}
trait B: A {}
impl<'a, T: A> A for &'a T {}
impl<T: B + ?Sized> A for Owned<T> {}
fn is_a<T: A>(_: T) {}
fn is_send<T: Send>(_: T) {}
fn is_sync<T: Sync>(_: T) {}
fn lent<'a, T: Sync + 'a, U: Send>(x: Shared<'a, T>, y: Shared<'a, U>, z: &'a mut U, u: &'a T) where 'a: 'a {
    is_send(x);
    is_sync(x);
    is_send(y);
    is_send(z);
    is_send(u);
    is_sync(u);
    is_a(u);
}
fn pointed<T, U: B + ?Sized>(x: *const T, y: fn(T) -> T, z: Owned<U>, u: &T) where T: A {
    is_send(x);
    is_send(y);
    is_sync(y);
    is_a(z);
    is_a(u);
    is_a(&u);
    is_a(x);
}
