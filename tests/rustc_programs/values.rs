// Values of types that are written, by which a call says what it asks.
struct Of<T>(T);
struct Pair<T, U> { first: T, second: U }
trait A {}
trait B {}
impl A for u8 {}
impl B for i8 {}
impl<T: A> A for Of<T> {}
impl<T: A, U: B> A for Pair<T, U> {}
impl<T: B> A for &T {}
impl<T: A> B for &mut T {}
impl<T: A> A for [T; 2] {}
fn is_a<T: A>(_: T) {}
fn is_b<T: B>(_: T) {}
fn are_both<T: A, U>(_first: T, mut _second: U, _: T) where U: B {}
fn points_to_a<T: A>(_: &T) {}
fn has_a<T: A, U>(_: Pair<T, U>, _: U) where U: B {}
fn nothing<T>(_: T, _: u8) {}
fn of_values(x: Of<u8>, y: Of<i8>, z: Pair<u8, i8>, n: u8) {
    is_a(x);
    is_a(y);
    is_a(z);
    is_b(x);
    nothing(x, n);
    nothing::<Of<i8>>(y, n);
    is_a::<Of<u8>>(x);
    is_a::<Of<i8>>(y);
}
fn of_references(x: &i8, y: &mut Of<u8>, mut z: [u8; 2], u: u8) {
    is_a(x);
    is_b(x);
    is_b(y);
    points_to_a(x);
    points_to_a(&u);
    points_to_a(&z);
    is_a(&u);
    is_a(&mut z);
    is_b(&mut z);
    is_a(z);
}
fn of_several(a: u8, b: i8, c: Pair<i8, u8>, d: Pair<u8, i8>) {
    are_both(a, b, a);
    are_both(b, a, b);
    has_a(c, a);
    has_a(d, b)
}
fn of_names() {
    let x: Of<u8> = loop {};
    let y: Of<bool> = todo!();
    is_a(x);
    is_a(y);
    let mut x: i8 = unimplemented!();
    is_b(x);
    let _: Of<u8> = panic!();
    is_a(&x);
}
