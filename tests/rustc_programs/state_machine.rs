// States as types, and which of them lead to an end.
struct Start;
struct Running<T>(T);
struct Stopped;
struct Broken;
trait Ends {}
trait Safe {}
impl Ends for Stopped {}
impl<T: Ends> Ends for Running<T> {}
impl Ends for Start where Running<Stopped>: Ends {}
impl<T> Safe for Running<T> where T: Ends, Option<T>: Safe {}
impl<T: Safe> Safe for Option<T> {}
impl Safe for Stopped {}
fn ends<T: Ends>() {}
fn is_safe<T: Safe>() {}
fn main() {
    ends::<Start>();
    ends::<Broken>();
    ends::<Running<Running<Start>>>();
    is_safe::<Running<Running<Stopped>>>();
    is_safe::<Running<Start>>();
    is_safe::<Running<Running<Broken>>>();
}
