// Numbers as types, and traits that count.
struct End;
struct Zero<N>(N);
struct One<N>(N);
trait Number {}
trait Positive {}
trait Power {}
impl Number for End {}
impl<N: Number> Number for Zero<N> {}
impl<N: Positive> Number for One<N> where N: Number {}
impl Positive for End {}
impl<N: Positive> Positive for Zero<N> {}
impl<N: Number> Positive for One<N> {}
impl<N> Power for One<N> where N: Power {}
impl Power for Zero<End> {}
fn is_number<T: Number>() {}
fn is_positive<T: Positive>() {}
fn is_power<T: Power>() {}
fn main() {
    is_number::<Zero<One<Zero<One<End>>>>>();
    is_number::<Zero<One<Zero<One<i32>>>>>();
    is_positive::<One<One<Zero<Zero<End>>>>>();
    is_positive::<Zero<End>>();
    is_power::<One<One<Zero<End>>>>();
    is_power::<One<Zero<Zero<End>>>>();
}
