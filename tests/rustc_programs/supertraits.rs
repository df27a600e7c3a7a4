// What stands above a trait says nothing of who implements it.
trait Above {}
trait Beside {}
trait Below: Above + Beside {}
struct Full;
struct Half;
struct Of<T>(T);
impl Above for Full {}
impl Beside for Full {}
impl Below for Full {}
impl Above for Half {}
impl<T: Below> Above for Of<T> {}
impl<T: Above> Beside for Of<T> {}
impl<T: Below> Below for Of<T> {}
fn is_below<T: Below>() {}
fn is_above<T: Above>() {}
fn is_beside<T: Beside>() {}
fn main() {
    is_below::<Full>();
    is_below::<Half>();
    is_above::<Of<Full>>();
    is_above::<Of<Half>>();
    is_beside::<Of<Half>>();
    is_below::<Of<Of<Full>>>();
}
