//! Tests of texts that declare types and traits, and of types as texts.

use std::alloc::{AllocError, Global};
use std::test::Fail;
use trait_texts::{Declarations, Options, ReadFault, Source, read};

const PLAIN: Options = Options {
    as_rustc: false,
    definitions: false,
};

const WITH_IMPLS: Options = Options {
    as_rustc: true,
    definitions: true,
};

/// A text, and its questions as it is read, or why it is refused.
const ROWS: [(&str, &str, &str); 22] = [
    ("nothing", " // no word\n/* nor /* here */ */", ""),
    (
        "paths",
        "struct A; enum B<T> { C, D(T), E { f: T, }, } trait S {} A: S? B<B<A>>: S? i32: S?",
        "A: S\nB<B<A>>: S\ni32: S\n",
    ),
    (
        "types of other forms",
        "auto trait S {} (&(i32,), [u8; 3], ((bool))): S? &'static mut [*const str]: S? fn(!, ()) -> *mut char: S? fn(): S?",
        "(&(i32,), [u8; 3], bool): S\n&mut [*const str]: S\nfn(!, ()) -> *mut char: S\nfn(): S\n",
    ),
    (
        "several bounds",
        "trait S {} trait R {} dyn S + R + 'static: S + R? &(dyn S + R): S? fn() -> (dyn R + S + R): S? &dyn S: R?",
        "dyn R + S: S\ndyn R + S: R\n&(dyn R + S): S\nfn() -> (dyn R + S): S\n&dyn S: R\n",
    ),
    (
        "calls, in their order",
        "fn main() { f::<i32, u8>(); g(); f::<A<'_, u8>, i32,>(); } struct A<'a, T: ?Sized>(&'a T);
         fn f<T: S + 'static, U: R>() where (T, U): S, {} fn g() where str: R {} unsafe auto trait S {} trait R: S {}",
        "i32: S\nu8: R\n(i32, u8): S\nstr: R\nA<u8>: S\ni32: R\n(A<u8>, i32): S\n",
    ),
    (
        "a parameter that hides a type",
        "struct T; trait S {} impl<T> S for &T {} T: S?",
        "T: S\n",
    ),
    (
        "a type that is not declared",
        "trait S {}\nA: S?",
        "x:2: A: no type has this name",
    ),
    (
        "a trait that is not declared",
        "i32: S?",
        "x:1: S: no trait has this name",
    ),
    (
        "a function that is not declared",
        "fn f() { g(); }",
        "x:1: g: no function has this name",
    ),
    (
        "a type twice",
        "struct A;\n\nenum A {}",
        "x:3: A: this name is declared twice",
    ),
    (
        "a type of the language twice",
        "struct u8;",
        "x:1: u8: this name is declared twice",
    ),
    (
        "a parameter twice",
        "struct A<T, T>(T);",
        "x:1: T: this name is declared twice",
    ),
    (
        "an argument too many",
        "struct A<T>(T); struct B(A<A<u8, u8>>);",
        "x:1: A: the number of its arguments is 1",
    ),
    (
        "a parameter that is nowhere",
        "trait S {} impl<T, U: S> S for (T,) where U: S {}",
        "x:1: U: the parameter has to stand in the type of the impl (E0207)",
    ),
    (
        "a generic trait",
        "trait S<T> {}",
        "x:1: <: this word is expected here: {",
    ),
    (
        "a method",
        "trait S { fn f(); }",
        "x:1: fn: this word is expected here: }",
    ),
    ("a macro", "m! { }", "x:1: !: this word is expected here: :"),
    (
        "a module",
        "mod a {}",
        "x:1: mod: no item and no question begins so",
    ),
    (
        "a comment without an end",
        "\n/* /* */",
        "x:2: /*: the comment has no end",
    ),
    ("no end", "struct A {", "x:1: end: a name is expected here"),
    (
        "another attribute",
        "#[derive(Copy)] struct A;",
        "x:1: derive: this attribute is not read",
    ),
    (
        "`Self` where there is none",
        "struct A(Self);",
        "x:1: Self: there is no `Self` here",
    ),
];

#[test]
fn declarations_are_read(rt: HostRuntime) -> Result<(), Fail> {
    for (name, text, wanted) in ROWS {
        let told = told(rt.alloc(), text, PLAIN)?;
        assert!(rt; told.as_slice() == wanted.as_bytes(), "{name}");
    }
    Ok(())
}

#[test]
fn impls_are_asked_about_last(rt: HostRuntime) -> Result<(), Fail> {
    let text = "trait A {} impl<T> B for (T,) where T: B {} trait B: A {} i32: B?";
    let told = told(rt.alloc(), text, WITH_IMPLS)?;
    assert!(rt; told.as_slice() == b"i32: B\n(T,): A\n".as_slice());
    Ok(())
}

#[test]
fn the_last_limit_counts(rt: HostRuntime) -> Result<(), Fail> {
    let sources = [
        Source {
            name: b"x",
            text: b"#![recursion_limit = \"7\"]",
        },
        Source {
            name: b"y",
            text: b"#![allow(dead_code)] #![recursion_limit = \"256\"]",
        },
    ];
    let depth = match read(rt.alloc(), sources.as_slice(), PLAIN) {
        Ok(declarations) => declarations.depth,
        Err(_) => 0,
    };
    assert_eq!(rt; depth, 256);
    Ok(())
}

fn told(alloc: Global, text: &str, options: Options) -> Result<Vec<u8>, AllocError> {
    let mut told = Vec::new(alloc);
    let source = Source {
        name: b"x",
        text: text.as_bytes(),
    };
    match read(alloc, [source].as_slice(), options) {
        Ok(declarations) => tell(alloc, &mut told, &declarations)?,
        Err(ReadFault::Refused(refusal)) => refusal
            .write(alloc, &mut told)
            .map_err(|_| AllocError)?,
        Err(ReadFault::Memory) => return Err(AllocError),
    }
    Ok(told)
}

fn tell(
    alloc: Global,
    told: &mut Vec<u8>,
    declarations: &Declarations<'_>,
) -> Result<(), AllocError> {
    let spelling = &declarations.spelling;
    for question in declarations.questions.as_slice() {
        spelling
            .write_type(alloc, told, &declarations.terms, question.subject)
            .map_err(|_| AllocError)?;
        told.extend_from_slice(b": ")?;
        told.extend_from_slice(spelling.trait_name(question.bound).unwrap_or(b"?"))?;
        told.push(b'\n')?;
    }
    Ok(())
}
