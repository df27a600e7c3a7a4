// Traits that are marked hold where they rest on themselves.
#![feature(rustc_attrs)]
#[rustc_coinductive]
trait Ping {}
#[rustc_coinductive]
trait Pong {}
struct Of<T>(T);
struct Two<A, B>(A, B);
impl<T> Ping for Of<T> where Of<T>: Pong {}
impl<T> Pong for Of<T> where Of<T>: Ping {}
impl<A, B> Ping for Two<A, B> where Two<B, A>: Pong, A: Ping {}
impl<A, B> Pong for Two<A, B> where Two<B, A>: Ping, B: Pong {}
impl Ping for i32 {}
impl Pong for u8 {}
fn is_ping<T: Ping>() {}
fn is_pong<T: Pong>() {}
fn main() {
    is_ping::<Of<i32>>();
    is_pong::<Of<bool>>();
    is_ping::<Two<i32, i32>>();
    is_ping::<Two<i32, u8>>();
    is_pong::<Two<i32, u8>>();
    is_ping::<Two<Of<u8>, Of<i32>>>();
    is_pong::<Two<Of<u8>, u8>>();
}
