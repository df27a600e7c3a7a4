"""Texts for the program `traits`: with all that has to be written of them, such that it refuses, such that mean ill."""

# Each construct.
EVERYTHING = """
#![feature(auto_traits, negative_impls)]
#![recursion_limit = "100"]
#![allow(dead_code)]
#[allow(unused)]
pub struct Named<'a, T, U: Plain + 'a> where T: Plain + ?Sized, { pub a: &'a T, pub(crate) b: U }
struct Tupled<T>(pub T, *const T, *mut T, &'static mut [T]) where T: Plain;
struct Unit;
enum Choice<T> { None, One(T, [T; 3]), Two { x: fn(T, T) -> T, y: fn() }, }
trait Plain {}
unsafe trait Lower: Plain + Safe {}
unsafe auto trait Safe {}
auto trait Auto {}
#[rustc_coinductive]
trait Marked {}
impl<'a, T: Plain + Auto, U> Plain for Named<'a, T, U> where Self: Auto, Vec<U>: Plain, (T, U,): Marked {}
impl<T> !Auto for Tupled<T> {}
unsafe impl<T: ?Sized> Safe for &'_ T {}
impl Plain for (Unit,) {}
impl Plain for dyn Lower + Safe {}
impl Marked for ! {}
impl<T> Plain for Vec<(T)> {}
struct Vec<T>(T);
fn is_plain<T: Plain + Auto, U: ?Sized>() where (T, U): Marked {}
fn main() { is_plain::<Unit, ()>(); is_plain::<Named<'static, i32, u8>, dyn Plain>(); }
fn takes<T: Plain, U>(_: T, mut x: &U, y: (U, u8),) where U: Marked, {}
fn gives<'a, T: Auto + 'a, U>(_: T, mut x: U, y: (U, u8), z: &'a mut T) where (T, U): Plain, 'a: 'a, {
    let t: Vec<T> = loop {};
    let mut u: Unit = todo!();
    let _: Unit = panic!();
    let v: T = unimplemented!();
    takes(t, &x, y);
    takes::<&mut T, U>(z, &x, y,);
    is_plain::<T, Vec<U>>();
    takes(&mut &u, &x, y);
}
gives::T: Auto + Plain?
(gives::T, gives::U): Plain?
Choice<(Unit,)>: Auto + Safe?
&'static dyn Lower: Auto?
fn(Unit) -> !: Plain?
[Tupled<bool>; 3]: Auto?
(): Marked?
"""

# Texts, what has to be written of them, and what with --as-rustc where that is something else.
ANSWERED = [
    ("", ""),
    ("\n\n// a comment\n/* and /* another */ one */", ""),
    ("struct A; trait B {} impl B for A {} A: B?", "A: B yes\n"),
    ("A: B? trait B {} struct A;", "A: B no\n"),
    (
        "use std::{rc::{self, Rc}, sync::*,}; pub use crate::a; pub(crate) use super::b::{}; use self::c; struct A; "
        "#[marker] #[warn(a::b)] trait B {} #![deny(c)] #[forbid(d, e,)] impl B for A {} impl B for A where u8: B {} A: B?",
        "A: B yes\n",
    ),
    (
        "auto trait B {} bool: B? char: B? str: B? !: B? (): B?",
        "bool: B yes\nchar: B yes\nstr: B yes\n!: B yes\n(): B yes\n",
    ),
    (
        "auto trait A {} &  'static  mut(i32): A? *const[ (u8) ;3]: A? (  u8 , ): A? fn( u8,i8 )->!: A? [&str]: A?",
        "&mut i32: A yes\n*const [u8; 3]: A yes\n(u8,): A yes\nfn(u8, i8) -> !: A yes\n[&str]: A yes\n",
    ),
    (
        "struct L<'a,T>(T,&'a());trait A{}impl<T:A>A for L<'_,T>{}impl A for(){}L<'static,L<()>>:A?L<i32>:A?",
        "L<L<()>>: A yes\nL<i32>: A no\n",
    ),
    (
        "trait A {} trait B: A {} dyn A: A? dyn B: A? dyn A: B? &dyn B: B?",
        "dyn A: A yes\ndyn B: A yes\ndyn A: B no\n&dyn B: B no\n",
    ),
    ("trait A {} trait B {} auto trait C {} (): A + B? (): C?", "(): A no\n(): B no\n(): C yes\n"),
    # questions by calls, in order
    (
        "trait A {} struct S<T>(T); impl A for u8 {} fn f<T: A, U>() where S<U>: A, T: A {} "
        "fn main() { f::<u8, ()>(); } fn g() { f::<(), u8>(); }",
        "u8: A yes\nS<()>: A no\nu8: A yes\n(): A no\nS<u8>: A no\n(): A no\n",
    ),
    # cycles of each kind
    (
        "trait A {} struct S<T>(T); impl<T> A for S<T> where S<T>: A {} S<u8>: A?",
        "S<u8>: A no\n",
        "S<u8>: A maybe (cycle)\n",
    ),
    (
        "#[rustc_coinductive] trait A {} struct S<T>(T); impl<T> A for S<T> where S<T>: A {} S<u8>: A?",
        "S<u8>: A yes\n",
    ),
    (
        "trait A {} #[rustc_coinductive] trait B {} struct S; "
        "impl A for S where S: B {} impl B for S where S: A {} S: A + B?",
        "S: A yes\nS: B yes\n",
    ),
    (
        "trait A {} #[rustc_coinductive] trait B {} struct S; struct R; impl A for S where R: A, S: B {} "
        "impl A for R where S: A {} impl B for S where S: A {} S: A + B? R: A?",
        "S: A no\nS: B no\nR: A no\n",
        "S: A maybe (cycle)\nS: B maybe (cycle)\nR: A maybe (cycle)\n",
    ),
    # limits on depth
    (
        '#![recursion_limit = "2"] trait A {} struct S<T>(T); impl<T: A> A for S<T> {} impl A for u8 {} '
        "S<S<u8>>: A? S<S<S<u8>>>: A? S<S<i8>>: A?",
        "S<S<u8>>: A yes\nS<S<S<u8>>>: A maybe (depth)\nS<S<i8>>: A no\n",
    ),
    (
        '#![recursion_limit = "0"] #![recursion_limit = "1"] auto trait A {} struct S<T>(T); S<u8>: A? S<S<u8>>: A?',
        "S<u8>: A yes\nS<S<u8>>: A maybe (depth)\n",
    ),
    ("trait A {} struct S<T>(T); impl<T> A for S<T> where S<S<T>>: A {} S<u8>: A?", "S<u8>: A maybe (depth)\n"),
    ("auto trait A {} struct S<T>(S<(T, T)>, N); struct N; impl !A for N {} S<u8>: A?", "S<u8>: A no\n"),
    # what an impl of an auto trait is for
    (
        "auto trait A {} impl !A for [u8; 3] {} impl !A for (u8, u8) {} impl !A for fn(u8) {} impl !A for *const u8 {} "
        "(u8, i8): A? (u8, i8, u8): A? fn(i8) -> i8: A? fn(): A? "
        "*const i8: A? *mut i8: A? &i8: A? [u8; 3]: A? [u8]: A?",
        "(u8, i8): A no\n(u8, i8, u8): A yes\nfn(i8) -> i8: A no\nfn(): A yes\n"
        "*const i8: A no\n*mut i8: A yes\n&i8: A yes\n[u8; 3]: A no\n[u8]: A yes\n",
    ),
    (
        "auto trait A {} struct S<T>(T); impl<T> !A for S<T> {} impl A for S<u8> {} S<u8>: A? S<i8>: A? (S<u8>,): A?",
        "S<u8>: A yes\nS<i8>: A no\n(S<u8>,): A yes\n",
    ),
    ("auto trait A {} trait B {} struct S; impl<T: B> A for T {} S: A? dyn B: A?", "S: A yes\ndyn B: A yes\n"),
    # and its fields
    (
        "auto trait A {} struct N; impl !A for N {} enum E<T, U> { V, W(T), X { y: u8, z: fn(U) } } enum Z {} "
        "trait B {} E<u8, N>: A? E<N, u8>: A? Z: A? dyn A: A? dyn B: A? fn(N) -> N: A? *const N: A?",
        "E<u8, N>: A yes\nE<N, u8>: A no\nZ: A yes\ndyn A: A yes\ndyn B: A no\nfn(N) -> N: A yes\n*const N: A no\n",
    ),
    # values of calls
    (
        "trait A {} impl A for u8 {} impl A for &u8 {} fn f<T: A>(_: T) {} fn g<T: A>(_: &T, _: T) {} "
        "fn main(x: u8, mut y: &u8, _: i8) { f(x); f(y); g(y, x); f(&y); g(&x, x,); } fn h(mut z: i8) {}",
        "u8: A yes\n&u8: A yes\nu8: A yes\n&&u8: A no\nu8: A yes\n",
    ),
    (
        "trait A {} struct S<T>(T); impl<T: A> A for S<T> {} impl A for u8 {} fn f<T, U: A>(_: S<T>, _: [U; 3]) "
        "where T: A {} fn g() { let x: S<S<u8>> = loop {}; let y: [i8; 3] = todo!(); f(x, y); let x: S<i8> = panic!(); "
        "f(x, y); f::<i8, i8>(x, y); }",
        "i8: A no\nS<u8>: A yes\ni8: A no\ni8: A no\ni8: A no\ni8: A no\n",
    ),
    ("fn f<T>(_: T) {} fn g(x: u8, x2: &mut u8) { f(x); f(&mut x2); f::<u8>(x) }", ""),
    ("fn f<T: A>(_: T) {} trait A {} fn g(x: u8) { f(x) }", "u8: A no\n"),
    (
        "fn f<T: A>(_: T) {} trait A {} fn g() { f(S); f(&S); f::<S>(S) } struct S; struct R where u8: A; impl A for S {} "
        "fn h(R: u8) { f(R) }",
        "S: A yes\n&S: A no\nS: A yes\nu8: A no\n",
    ),
    # parameters of functions, in their bodies
    (
        "trait A {} auto trait B {} struct S<T>(T); impl<T: A> A for S<T> {} fn a<T: A>() {} fn b<T: B>(_: T) {} "
        "fn f<T: A, U: B>(x: S<T>, y: S<U>) { a::<T>(); a::<S<T>>(); a::<U>(); b(x); b(y); } "
        "fn g<T: B, U>(x: S<T>, y: S<U>) { a::<T>(); a::<S<T>>(); b(x); b(y); }",
        "T: A yes\nS<T>: A yes\nU: A no\nS<T>: B no\nS<U>: B yes\n"
        "T: A no\nS<T>: A no\nS<T>: B yes\nS<U>: B no\n",
    ),
    (
        "auto trait A {} struct R<T>(T); impl<T> !A for R<T> {} fn a<T: A>(_: T) {} "
        "fn f<T>(x: R<T>, y: (R<T>, u8), z: R<u8>, u: R<R<T>>) where R<T>: A { a(x); a(y); a(z); a(u); }",
        "R<T>: A yes\n(R<T>, u8): A yes\nR<u8>: A no\nR<R<T>>: A no\n",
    ),
    (
        "auto trait A {} struct S<T>(T); fn a<T: A>(_: T) {} "
        "fn f<T, U>(x: S<T>, y: S<u8>, z: S<U>) where S<T>: A { a(x); a(y); a(z); }",
        "S<T>: A yes\nS<u8>: A yes\nS<U>: A no\n",
    ),
    (
        "trait A {} trait B: A {} trait C: B {} fn a<T: A>() {} fn c<T: C>() {} struct S<T>(T); "
        "fn f<T: C>() where S<T>: B { a::<T>(); c::<T>(); a::<S<T>>(); c::<S<T>>(); a::<&T>(); }",
        "T: A yes\nT: C yes\nS<T>: A yes\nS<T>: C no\n&T: A no\n",
    ),
    (
        "trait A {} f::T: A? (g::T, f::T): A? fn f<T: A>() { a::<T>(); } fn g<T>() where (T, T): A { a::<(T, T)>(); } "
        "fn a<T: A>() {} (g::T, g::T): A? auto: A? struct auto; auto trait B {} &g::T: B?",
        "T: A yes\n(T, T): A no\nT: A yes\n(T, T): A yes\n(T, T): A yes\nauto: A no\n&T: B no\n",
    ),
    (
        "trait A {} struct S<T>(T); impl<T> A for S<T> where S<T>: A {} fn a<T: A>(_: T) {} "
        "fn f<T>(x: S<T>) { a(x); } fn g<T>(x: S<T>) where S<T>: A { a(x); }",
        "S<T>: A no\nS<T>: A yes\n",
        "S<T>: A maybe (cycle)\nS<T>: A yes\n",
    ),
    (
        "trait A {} fn a<T: A>() {} fn f<'a, T: 'a, U: ?Sized + 'a>() where T: 'a, u8: 'a, u8: ?Sized, 'a: 'a { a::<T>(); }",
        "T: A no\n",
    ),
    (
        "auto trait Sized {} impl<T> !Sized for [T] {} struct S<T>(T); fn s<T: Sized>() {} fn f<T, U: ?Sized, V, W: ?Sized "
        "+ Sized>() where V: ?Sized, S<T>: ?Sized { s::<T>(); s::<U>(); s::<S<T>>(); s::<S<U>>(); s::<V>(); s::<[T]>(); s::<W>(); }",
        "T: Sized yes\nU: Sized no\nS<T>: Sized yes\nS<U>: Sized no\nV: Sized no\n[T]: Sized no\nW: Sized yes\n",
    ),
    ("fn s<T: Sized>() {} fn f<T>() { s::<T>(); } trait A {} trait Sized: A {} f::T: A?", "T: Sized yes\nT: A yes\n"),
    # heads and where-clauses
    (
        "trait A {} trait B {} struct S<T>(T); impl<T> A for S<T> where Self: B {} "
        "impl B for S<u8> {} S<u8>: A? S<i8>: A?",
        "S<u8>: A yes\nS<i8>: A no\n",
    ),
    (
        "trait A {} impl<T> A for (T, T) {} (u8, u8): A? (u8, i8): A? ((), ()): A?",
        "(u8, u8): A yes\n(u8, i8): A no\n((), ()): A yes\n",
    ),
    (
        "trait A {} trait B {} impl A for u8 {} impl<T: B> A for T {} impl B for i8 {} "
        "impl<T> A for (T, u8) where T: B {} u8: A? i8: A? (): A? (u8, u8): A? (i8, u8): A?",
        "u8: A yes\ni8: A yes\n(): A no\n(u8, u8): A no\n(i8, u8): A yes\n",
    ),
]

# Texts, what has to be written of them, and what of their impls behind it.
DEFINITIONS = [
    # the supertrait holds by a where-clause, by another impl, or not
    ("trait A {} trait B: A {} struct S<T>(T); impl<T> B for S<T> where Self: A {}", "", "S<T>: A yes\n"),
    ("trait A {} trait B: A {} impl B for u8 {} impl A for u8 {}", "", "u8: A yes\n"),
    ("u8: B? impl B for u8 {} trait B: A {} trait A {} i8: B?", "u8: B yes\ni8: B no\n", "u8: A no\n"),
    ("trait A {} trait B: A {} impl<T: B> A for T {} impl B for u8 {}", "", "u8: A yes\n"),
    # for any type
    (
        "trait A {} trait B: A {} trait C {} trait D: A {} impl<T: C> A for T {} impl<T: C> B for T {} impl<T> D for T {}",
        "",
        "T: A yes\nT: A no\n",
    ),
    # by what stands above the trait of a bound
    (
        "trait A {} trait B: A {} trait C: D {} trait D: A {} struct S<T>(T); impl<T: A> A for S<T> {} "
        "impl<T: C> B for T {} impl<T: D, U: C> B for (S<T>, U) {} impl<T, U> B for S<(T, U)> where (T, U): D {}",
        "",
        "T: A yes\n(S<T>, U): A no\nS<(T, U)>: A yes\n",
    ),
    # equal names of parameters
    (
        "trait A {} trait B: A {} struct S<T>(T); struct R<T>(T); impl<T: A> A for S<T> {} impl<T: A> A for R<T> {} "
        "impl<T: A> B for S<T> {} impl<T> B for R<T> {} impl<U, T: A> B for (S<T>, U) where (S<T>, U): A {} "
        "fn f<T>() { g::<T>(); g::<S<T>>(); } fn g<T: B>() {}",
        "T: B no\nS<T>: B no\n",
        "S<T>: A yes\nR<T>: A no\n(S<T>, U): A yes\n",
    ),
    # several bounds in their order, and what has a size
    (
        "auto trait Sized {} trait A {} trait B: A + 'static + Sized + A {} impl<T> !Sized for [T] {} impl<'a, T: ?Sized> B "
        "for &'a T {} impl<T: ?Sized> B for T {} impl<T> B for [T] {} impl<T> B for (T,) where 'static: 'static {}",
        "",
        "&T: A no\n&T: Sized no\n&T: A no\nT: A no\nT: Sized no\nT: A no\n[T]: A no\n[T]: Sized no\n[T]: A no\n"
        "(T,): A no\n(T,): Sized yes\n(T,): A no\n",
    ),
    # negative impls, auto traits, and supertraits that are not direct
    (
        "trait B {} auto trait A: B {} impl !A for u8 {} impl A for i8 {} impl B for () {} impl<T> A for T where T: B {}",
        "",
        "i8: B no\nT: B yes\n",
    ),
    ("trait A {} trait B: A {} trait C: B {} impl C for u8 {} impl B for u8 {}", "", "u8: B yes\nu8: A no\n"),
    # where-clauses without a parameter say nothing
    (
        "trait A {} trait B: A {} struct S; impl A for S where u8: A {} impl B for S where u8: A, Self: B, [Self; 2]: A {}",
        "",
        "S: A no\n",
    ),
    # `Self` in where-clauses
    (
        "trait A {} trait B: A {} struct S<T>(T); impl<T> A for T where S<T>: A {} "
        "impl<T> B for S<(T, u8)> where (u8, Self, &Self): A, S<Self>: B, T: A {}",
        "",
        "S<(T, u8)>: A yes\n",
    ),
    (
        "trait A {} trait B: A {} impl<T> A for (T,) where ((T,), T): A {} impl<T> B for (T,) where (Self, T): A {} "
        "impl<T> B for ((T,), T) where (Self,): B {}",
        "",
        "(T,): A yes\n((T,), T): A no\n",
    ),
]

# What is refused: the text, the line that has to be named, and words of which one has to be.
REFUSED = [
    ("struct A;\nuse std::rc::Rc as R;", 2, "as"),
    ("use std::{rc::Rc\nsync::Arc};", 2, "sync"),
    ("use std::\n;", 2, ";"),
    ("use ::std::rc::Rc;", 1, "::"),
    ("fn f() {\n use std::rc::Rc;\n}", 2, "use"),
    ("#[marker(1)]\ntrait A {}", 1, "("),
    ("mod m {}", 1, "mod"),
    ("struct A;\n\nconst N: i32 = 3;", 3, "const"),
    ("static N: i32 = 3;", 1, "static"),
    ("type A = i32;", 1, "type"),
    ("union A { x: i32 }", 1, "union A"),
    ("extern crate core;", 1, "extern"),
    ("macro_rules! m { () => {} }", 1, "macro_rules !"),
    ('println!("");', 1, "println !"),
    ("trait A {\n type B;\n}", 2, "type"),
    ("trait A {\n fn f();\n}", 2, "fn"),
    ("trait A {\n const N: i32;\n}", 2, "const"),
    ("trait A<T> {}", 1, "<"),
    ("trait A where Self: Sized {}", 1, "where"),
    ("trait A {}\nimpl A for () {\n fn f() {}\n}", 3, "fn"),
    ("trait A {}\nimpl A for () {\n type B = i32;\n}", 3, "type"),
    ("trait A {}\nimpl<T>\nA<T>\nfor () {}", 3, "< A"),
    ("struct S;\nimpl S {}", 2, "S {"),
    ("trait A {}\ndefault impl A for () {}", 2, "default impl"),
    ("trait A {}\nimpl const A for () {}", 2, "const"),
    ("trait A {}\nimpl<const N: usize> A for [u8; N] {}", 2, "const"),
    ("trait A {}\nimpl<T = i32> A for T {}", 2, "="),
    ("struct S<T = i32>(T);", 1, "="),
    ("struct S<const N: usize>;", 1, "const"),
    ("trait A {}\nimpl<T> A for T where for<'a> &'a T: A {}", 2, "for"),
    ("trait A {}\nimpl A for impl A {}", 2, "impl"),
    ("struct S(impl A);\ntrait A {}", 1, "impl"),
    ("struct S(for<'a> fn(&'a u8));", 1, "for"),
    ("struct S(std::rc::Rc<u8>);", 1, ":: std"),
    ("struct S(<u8 as A>::B);", 1, "<"),
    ("struct S(_);", 1, "_"),
    ("struct S(unsafe fn());", 1, "unsafe"),
    ('struct S(extern "C" fn());', 1, "extern"),
    ("struct S(fn(u8, ...));", 1, "."),
    ("struct S([u8; N]);", 1, "N"),
    ("struct S([u8; 1 + 2]);", 1, "+"),
    ("struct S(*u8);", 1, "u8"),
    ("struct S(Self);", 1, "Self"),
    ("struct S(dyn);\ntrait A {}", 1, ")"),
    ("struct S { x: u8, y }", 1, "}"),
    ("struct S { x = u8 }", 1, "="),
    ("struct S(u8)", 1, "end"),
    ("struct S", 1, "end"),
    ("enum E { A = 1 }", 1, "="),
    ("enum E;", 1, ";"),
    ("#[derive(Clone)]\nstruct S;", 1, "derive ["),
    ("struct S {\n #[cfg(test)] x: u8 }", 2, "# cfg"),
    ("fn f(x: i32,\ny) {}", 2, ")"),
    ("fn f(\n&x: i32) {}", 2, "&"),
    ("struct S;\nfn f(\n&self) {}", 3, "&"),
    ("struct S;\nfn f(\nself) {}", 3, "self"),
    ("fn f((a, b): (u8, u8)) {}", 1, "("),
    ("fn f(x: u8, _: u8, _: u8,\nx: i8) {}", 2, "x"),
    ("trait A {}\nfn f(x: impl A) {}", 2, "impl"),
    ("fn f() -> i32 {}", 1, "->"),
    ("fn f() {\n let x = 1;\n}", 2, "="),
    ("fn f() {\n let x: u8 = 1;\n}", 2, "1"),
    ("fn f() {\n let x: u8 =\ng();\n}", 3, "g"),
    ('fn f() {\n let x: u8 = panic!(\n"");\n}', 3, '""'),
    ("fn f() {\n let x: u8 = loop {\nbreak };\n}", 3, "break"),
    ("fn f() {\n let x: u8;\n}", 2, ";"),
    ("fn f() {\n let (x, y): (u8, u8) = todo!();\n}", 2, "("),
    ("fn f() {\n let ref x: u8 = todo!();\n}", 2, "ref x"),
    ("fn f() {\n let x: _ = todo!();\n}", 2, "_"),
    ("fn f<T>(_: T) {}\nfn g() {\n f(x);\n}", 3, "x"),
    ("fn f<T>(_: T) {}\nfn g() {\n f(S);\n}\nstruct S();", 3, "S"),
    ("fn f<T>(_: T) {}\nfn g() {\n f(S);\n}\nstruct S {}", 3, "S"),
    ("fn f<T>(_: T) {}\nfn g() {\n f(S);\n}\nstruct S<T>;", 3, "S"),
    ("fn f<T>(_: T) {}\nfn g() {\n f(S);\n}\nenum S {}", 3, "S"),
    ("fn f<T>(_: T) {}\nfn g() {\n f(u8);\n}", 3, "u8"),
    ("fn f<T>(_: T) {}\nfn g() {\n f(f);\n}", 3, "f"),
    ("fn f<T>(_: T) {}\nfn g(x: u8) {\n f(\nx.y);\n}", 4, "."),
    ("fn f<T>(_: T) {}\nfn g(x: u8) {\n f(\n1);\n}", 4, "1"),
    ("fn f<T>(_: T) {}\nfn g(x: u8) {\n f(\n(x, x));\n}", 4, "("),
    ("fn f<T>(_: T) {}\nfn g(x: u8) {\n f(\nf(x));\n}", 4, "f ("),
    ("fn f<T>(_: T) {}\nfn g(x: u8) {\n f(x, x);\n}", 3, "f"),
    ("fn f<T>(_: T) {}\nfn g(x: u8) {\n f();\n}", 3, "f"),
    ("fn f<T>(_: T) {}\nfn g(x: u8) {\n f::<u8>();\n}", 3, "f"),
    ("fn f<T>(_: T) {}\nfn g(x: u8) {\n f::<i8>(\nx);\n}", 4, "x"),
    ("fn f<T>(_: &T) {}\nfn g(x: &mut u8) {\n f(\nx);\n}", 4, "x"),
    ("fn f<T>(_: T, _: T) {}\nfn g(x: u8, y: i8) {\n f(x,\ny);\n}", 4, "y"),
    ("fn f<T>(_: T, _: (u8, T)) {}\nfn g(x: u8, y: (i8, u8)) {\n f(x,\ny);\n}", 4, "y"),
    ("fn f<T, U>(_: T) {}\nfn g(x: u8) {\n f(x);\n}", 3, "f"),
    ("fn f<T>(_: T) {}\nfn g(x: !) {\n f(x);\n}", 3, "x"),
    ("fn f<T>(_: T) {}\nfn g(f: u8) {\n f(f);\n}", 3, "f"),
    ("fn f<T>(_: T) {}\nfn g() {\n f::<T>();\n}", 3, "T"),
    ("fn f<T>(x: T) {}\nfn g() {\n f(x);\n}", 3, "x"),
    ("trait A {}\nfn f<T>()\nwhere\nu8: A { f::<T>(); }", 4, "u8"),
    ("trait A {}\nstruct S<T>(T);\nfn f<T>()\nwhere T: A,\nS<u8>: A { f::<T>(); }", 5, "S < u8 >"),
    ("trait A {}\nfn f<T>() where for<'a> &'a T: A { f::<T>(); }", 2, "for"),
    ("trait A {}\nfn f<T>() { f::<T>(); }\nT: A?", 3, "T"),
    ("trait A {}\nfn f<T>() { f::<T>(); }\nf::U: A?", 3, "U"),
    ("trait A {}\nfn f<T>() {}\nf::T: A?", 3, "T"),
    ("trait A {}\nfn f<T>() { f::<T>(); }\nf::T<u8>: A?", 3, "<"),
    ("trait A {}\nfn f<T>() { f::<T>(); }\nimpl A for\nf::T {}", 4, ":: f"),
    ("trait A {}\ntrait B: A {}\nimpl<T> B for (T,) {}\nimpl::1::T: A?", 4, "T"),
    ("trait A {}\nimpl::A for u8 {}", 2, "::"),
    ("trait A {}\nimpl::1x::T: A?", 2, "1x"),
    ("trait A {}\n&impl::A: A?", 2, "impl"),
    ("trait A {}\nimpl::1::1: A?", 2, "1"),
    ("trait A {}\nimpl A for (u8,\nimpl::1::T) {}", 3, "impl :: 1 T"),
    ("fn f<T>() {\n f::<T<u8>>(); }", 2, "T <"),
    ("fn f<T>() {}\nfn main() {\n f::<u8>()\n f::<u8>() }", 4, "f"),
    ("fn f<T>() {}\nfn main() {\n f::<u8>();\n ; }", 4, ";"),
    ("fn f<T>() {}\nfn main() {\n g::<u8>();\n}", 3, "g"),
    ("fn f<T>() {}\nfn main() {\n f::<u8, u8>();\n}", 3, "f :: < >"),
    ("fn f<T>() {}\nfn main() {\n f::<>();\n}", 3, "f :: < >"),
    ("async fn f() {}", 1, "async"),
    ("struct S<T>(T);\n\nstruct R(S);", 3, "S"),
    ("struct S<T>(T);\n\nstruct R(S<u8, u8>);", 3, "S < , >"),
    ("struct R(\nS);", 2, "S"),
    ("struct R(u8<u8>);", 1, "u8 <"),
    ("struct S<T>(T<u8>);", 1, "T <"),
    ("struct S;\ntrait A {}\nstruct S;", 3, "S"),
    ("struct S;\ntrait A {}\nenum S {}", 3, "S"),
    ("trait A {}\nauto trait A {}", 2, "A"),
    ("struct S<T, T>(T);", 1, "T"),
    ("impl A for () {}", 1, "A"),
    ("trait A {}\n(): A?\n(): B?", 3, "B"),
    ("trait A: B {}", 1, "B"),
    ("struct S<T: B>(T);", 1, "B"),
    ("fn f<T: B>() {}", 1, "B"),
    ("struct S(dyn B);", 1, "B"),
    ("trait A {}\nimpl<T: B> A for T {}", 2, "B"),
    ("trait A {}\nimpl A for T {}", 2, "T"),
    ("trait A {}\nimpl<T,\nU> A for T {}", 3, "U"),
    ("trait A {}\nT: A?", 2, "T"),
    ("trait A {}\nSelf: A?", 2, "Self"),
    ("trait A {}\nu8: A", 2, "end"),
    ("trait A {}\nu8: ?", 2, "?"),
    ("trait A {}\nu8: A + ?", 2, "?"),
    ("trait A {}\nu8: 'a?", 2, "?"),
    ("trait A {}\nu8: ??", 2, "?"),
    ("trait A {}\nu8 A?", 2, "A"),
    ("trait A {}\nu8: ?Sized?", 2, "? Sized"),
    ("trait A {}\nimpl !A for u8 {};", 2, ";"),
    ("/* a comment\n without an end", 1, "/*"),
    ("#![recursion_limit = 3]", 1, "3"),
    ('#![recursion_limit = "x"]', 1, '"x"'),
    ('#![recursion_limit = ""]', 1, '""'),
    ('#![recursion_limit = "-1"]', 1, '"-1"'),
    ("#![no_std]", 1, "no_std"),
    ("#[allow(a::)]\nstruct S;", 1, ")"),
    ("#![allow(a::b::)]", 1, ")"),
    ("#[allow(a b)]\nstruct S;", 1, "b"),
    ("struct S<'a> where 'a;", 1, ";"),
    ("trait A {}\nfn f<'a>() where 'a {}", 2, "{"),
    ("trait A {}\nimpl<'a> A for &'a u8 where\n'a,\nu8: A {}", 3, ","),
    ("struct é;", 1, "é"),
    ("struct A;\n\\", 2, "\\"),
    ("struct A;\n\0", 2, "\0"),
    ("}", 1, "}"),
    ("struct S(Vec<Vec<u8>);\nstruct Vec<T>(T);", 1, ")"),
    ("struct S(u8>);", 1, ">"),
    ("struct 1;", 1, "1"),
    ("struct fn;", 1, "fn"),
    ("auto struct A;", 1, "auto struct"),
    ("trait A {}\nunsafe struct S;", 2, "struct unsafe"),
    ("#[rustc_coinductive] struct S;", 1, "struct"),
    ("#[rustc_coinductive]\n#[allow(x)]\nimpl A for u8 {}\ntrait A {}", 3, "impl"),
    ("#[rustc_coinductive]\n", 2, "end"),
    ("struct u8;", 1, "u8"),
    ("trait A {}\nfn f<T: A>() {}\nfn f<T: A>() {}", 3, "f"),
    ("trait A {}\nfn f<T: (A)>() {}", 2, "("),
]

# How much of what a text that means ill has too much of.
MANY = 100_000
BASE = "struct L<T>(T);\nauto trait A {}\ntrait B {}\nimpl<T: B> B for L<T> {}\n"
ABOVE = "struct L<T>(T);\ntrait A {}\ntrait B: A {}\n"
# Types that can be nested, by what is written before the inner one, and what behind it.
NESTED = {
    "types": ("L<", ">"),
    "tuples of one": ("(", ",)"),
    "tuples of two": ("(u8, ", ")"),
    "parentheses": ("(", ")"),
    "references": ("&", ""),
    "pointers": ("*const ", ""),
    "slices": ("[", "]"),
    "arrays": ("[", "; 3]"),
    "parameters": ("fn(", ")"),
    "results": ("fn() -> ", ""),
    "open brackets": ("L<", ""),
    "closing brackets": ("", ">"),
}


def nested(form, inner="u8"):
    """A deep type."""
    before, behind = NESTED[form]
    return before * MANY + inner + behind * MANY


def each(form, between=", "):
    """A long list."""
    return between.join(form.format(number) for number in range(MANY))


def deep_texts():
    """Types that are nested deeply, wherever a type may stand."""
    for form in NESTED:
        yield f"deep {form}", f"{BASE}{nested(form)}: A + B?"
    deep, generic = nested("types"), nested("types", "T")
    yield "a deep type with depth enough", f'#![recursion_limit = "{MANY + 9}"]\n{BASE}{deep}: A + B?'
    yield "a deep field", f"{BASE}struct S({deep});\nS: A + B?"
    yield "a deep head", f"{BASE}impl<T> B for (T, {generic}) {{}}\n(u8, L<u8>): B?"
    yield "a deep head that fits", f"struct L<T>(T); trait B {{}}\nimpl<T> B for {generic} {{}}\n{deep}: B?"
    yield "a deep where-clause", f"{BASE}impl<T> B for (T,) where {generic}: B {{}}\n(u8,): B?"
    yield "a deep head asked about", f"{ABOVE}impl<T> B for {generic} where Self: A {{}}"
    yield "a deep where-clause asked about", f"{ABOVE}impl<T> B for (T,) where {generic}: A {{}}"
    yield "a deep argument", f"{BASE}fn f<T: B>() {{}} fn main() {{ f::<{deep}>(); }}"
    yield "a deep bound", f"{BASE}fn f<T>() where {generic}: B {{}} fn main() {{ f::<u8>(); }}"
    yield "a deep value", f"{BASE}fn f<T: B>(_: T) {{}} fn g(x: {deep}) {{ f(x); f(&x); }}"
    yield "a deep value that fits", f"{BASE}fn f<T: B>(_: {generic}) {{}} fn g(x: {deep}) {{ f(x); }}"
    yield "a deep assumption", f"{BASE}fn f<T: B>(_: T) {{}} fn g<T>(x: {generic}) where {generic}: A + B {{ f(x); }}"
    yield "a deep reference", f"{BASE}fn f<T: A>(_: T) {{}} fn g(x: u8) {{ f({'&' * MANY}x); }}"
    yield "deep comments", "/*" * MANY + "*/" * MANY
    yield "deep comments without an end", "/*" * MANY


def long_texts():
    """Lists that are long, and many of all else."""
    yield "a wide tuple", f"{BASE}({'u8, ' * MANY}): A + B?"
    yield "a wide struct", f"{BASE}struct S({'u8, ' * MANY});\nS: A + B?"
    yield "a wide enum", f"{BASE}enum S {{ {each('V{}')} }}\nS: A + B?"
    yield "many bounds", f"{BASE}impl<T: {'B + ' * MANY}B> B for (T,) {{}}\n(u8,): B?"
    yield "many where-clauses", f"{BASE}impl<T> B for (T,) where {'T: B, ' * MANY} {{}}\n(u8,): B?"
    yield "many bounds of a type", f"{BASE}dyn {'B + ' * MANY}B: B?"
    yield "many different bounds of a type", f"{each('trait B{} {{}}', ' ')}\ndyn {each('B{}', ' + ')}: B7?"
    yield "many parameters", f"{BASE}struct S<{each('T{}')}>(T7);\nS<{'u8, ' * MANY}>: A + B?"
    yield "many parameters of an impl", f"{BASE}impl<{each('T{}')}> B for ({each('T{}')}) {{}}"
    heads = f"impl<{each('T{}: A')}> B for ({each('T{}')}) {{}}"
    yield "many parameters of an impl asked about", f"{ABOVE}{heads}"
    yield "many where-clauses of an impl asked about", f"{ABOVE}impl<T> B for (T,) where {'T: A, (Self, T): A, ' * MANY} {{}}"
    yield "many impls asked about", f"{ABOVE}{'impl B for u8 {} ' * MANY}"
    call = f"fn main() {{ f::<{'u8, ' * MANY}>(); }}"
    yield "many parameters of a function", f"{BASE}fn f<{each('T{}: B')}>() {{}} {call}"
    yield "many lifetimes", f"""{BASE}struct S<{each("'a{}")}>;\nS: A?"""
    yield "many types", f"{BASE}{each('struct S{};', ' ')}\nS7: A?"
    yield "many impls", f"{BASE}{'impl B for u8 {} ' * MANY}u8: B?"
    yield "many traits", f"{BASE}{each('trait B{} {{}}', ' ')}\nu8: B7?"
    above = " ".join(f"trait B{number + 1}: B{number} {{}}" for number in range(MANY))
    yield "many traits above", f"trait B0 {{}} {above}\ndyn B{MANY}: B0?"
    yield "many objects", f"{each('trait B{} {{}}', ' ')}\n{each('dyn B{}: B7?', ' ')}"
    yield "many objects of many traits", f"{each('trait B{} {{}}', ' ')}\n{each('dyn B{0} + B7 + B8: B{0}?', ' ')}"
    yield "many questions", f"{BASE}{'L<u8>: A? ' * MANY}"
    yield "many calls", f"{BASE}fn f<T: A>() {{}} fn main() {{ {'f::<u8>(); ' * MANY} }}"
    yield "many values", f"{BASE}fn f<T>({'_: T, ' * MANY}) {{}} fn g(x: u8) {{ f({'x, ' * MANY}); }}"
    yield "many names of values", f"{BASE}fn f<T: A>(_: T) {{}} fn g({each('x{}: u8')}) {{ f(x7); }}"
    yield "many values in a body", f"{BASE}fn f<T: A>(_: T) {{}} fn g() {{ {'let x: u8 = loop {}; ' * MANY}f(x); }}"
    yield "many calls with values", f"{BASE}fn f<T: A>(_: T) {{}} fn g(x: u8) {{ {'f(x); ' * MANY} }}"
    called = "fn f<T: B>() {}"
    yield "many parameters in a body", f"{BASE}{called} fn g<{each('T{}: A + B')}>() {{ f::<T7>(); f::<(T8,)>(); }}"
    yield "many bodies", f"{BASE}{called}{each('fn g{0}<T: B>() {{ f::<T>(); }}', ' ')}"
    yield "many assumptions", f"{BASE}{called}fn g<T>() where {'L<T>: B, ' * MANY} {{ f::<L<T>>(); }}"
    yield "many traits above what is assumed", f"trait B0 {{}} {above}\nfn f<T: B0>() {{}} fn g<T: B{MANY}>() {{ f::<T>(); }}"
    yield "a long name", f"struct {'a' * MANY * 10};\nauto trait A {{}}\n{'a' * MANY * 10}: A?"
    yield "a long lifetime", f"struct S<'{'a' * MANY * 10}>;"
    yield "a long number", f"{BASE}[u8; {'9' * MANY}]: A?"
    for mark in "<>(){}[],;:&*!?#'\"=+-./|_\\\n":
        yield f"many of {mark!r}", mark * MANY


def hard_texts():
    """Goals that are many or deep though the text is short."""
    chain = "".join(f"struct S{number}(S{number + 1});\n" for number in range(3000))
    yield "a chain of types", f"{BASE}{chain}struct S3000; S0: A?"
    yield "types that double", "auto trait A {} struct D<T>(D<(T, T)>); D<u8>: A?"
    yield "types that double deeply", '#![recursion_limit = "999"] auto trait A {} struct D<T>(D<(T, T)>); D<u8>: A?'
    yield "heads that double", "trait A {} impl<T> A for (T, T) where ((T, T), (T, T)): A {} (u8, u8): A?"
    yield "goals that double", "trait A {} struct D<T>(T); impl<T> A for D<T> where D<(T,)>: A, D<D<T>>: A {} D<u8>: A?"
    yield "traits above themselves", "trait A: B {} trait B: A {} trait C: C {} dyn A: B? dyn B: A? dyn C: A?"


def limit_texts():
    """Limits that are no number of a machine."""
    powers = [str(2**bits + more) for bits in (31, 32, 63, 64) for more in (-1, 0)]
    for limit in ("9" * MANY, "0" * MANY + "7", *powers):
        yield f"a limit of {limit[:20]}", f'#![recursion_limit = "{limit}"]\n{BASE}u8: A?'


# Texts that are answered, whatever a program may allow, and such that are not.
RIGHT = {
    "nothing": b"",
    "a blank": b" ",
    "no newline at the end": f"{BASE}u8: A?".encode(),
    "a comment at the end": f"{BASE}u8: A? // and".encode(),
}
WRONG = {
    "bytes that are no text": bytes(range(256)),
    "a name that is no UTF-8": b"struct A\xff;",
    "a zero byte": b"struct A;\0struct B;",
    "a text in quotes without an end": b'#![recursion_limit = "9',
    "a text in quotes over lines": b'#![recursion_limit = "9\n9"]',
}
EITHER = {
    "lines that end as elsewhere": f"{BASE}u8: A?\n".replace("\n", "\r\n").encode(),
    "comments that are no UTF-8": b"struct A;\n// \xff\xfe\n/* \xc3( */",
    "a mark of byte order": b"\xef\xbb\xbfstruct A;",
}


def ill_texts():
    """The name of each text that means ill, the text, and the statuses that are right."""
    for texts, statuses in ((RIGHT, [0]), (WRONG, [2]), (EITHER, [0, 2])):
        yield from ((name, text, statuses) for name, text in texts.items())
    yield from ((name, text.encode(), [0]) for name, text in hard_texts())
    for texts in (deep_texts, long_texts, limit_texts):
        yield from ((name, text.encode(), [0, 2]) for name, text in texts())
