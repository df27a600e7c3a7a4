// Names that are brought in, and a trait whose impls may overlap.
#![feature(marker_trait_attr)]
#![warn(unused)]
#![deny(unsafe_code)]
use std::rc::Rc;
pub use std::{marker::{self, PhantomData}, sync::*};
#[marker]
#[allow(unused)]
trait Marked {}
trait Plain {}
struct One;
struct Two;
struct Of<T>(PhantomData<T>);
impl Plain for Two {}
impl Marked for One {}
impl<T: Plain> Marked for Of<T> {}
impl<T: Marked> Marked for Of<T> {}
impl<T> Marked for Of<T> where Of<Of<T>>: Plain {}
impl<T> Marked for Of<Of<T>> where T: Plain {}
fn is_marked<T: Marked>() {}
fn is_send<T: Send>() {}
fn main() {
    is_marked::<One>();
    is_marked::<Two>();
    is_marked::<Of<One>>();
    is_marked::<Of<Two>>();
    is_marked::<Of<Of<Two>>>();
    is_marked::<Of<u8>>();
    is_marked::<Of<Of<u8>>>();
    is_send::<Of<Arc<u8>>>();
    is_send::<Of<Rc<u8>>>();
}
