// Two traits that need each other, and end.
struct Zero;
struct Next<N>(N);
trait Even {}
trait Odd {}
impl Even for Zero {}
impl<N: Odd> Even for Next<N> {}
impl<N: Even> Odd for Next<N> {}
fn is_even<T: Even>() {}
fn is_odd<T: Odd>() {}
fn main() {
    is_even::<Zero>();
    is_odd::<Zero>();
    is_even::<Next<Zero>>();
    is_odd::<Next<Zero>>();
    is_even::<Next<Next<Next<Next<Zero>>>>>();
    is_odd::<Next<Next<Next<Next<Zero>>>>>();
    is_odd::<Next<Next<i32>>>();
}
