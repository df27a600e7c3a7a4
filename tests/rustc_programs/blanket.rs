// Impls for all types that have another trait.
trait Base {}
trait Next {}
trait Last {}
trait All {}
struct Yes;
struct No;
struct Of<T>(T);
impl Base for Yes {}
impl<T: Base> Base for Of<T> {}
impl<T: Base> Next for T {}
impl<T> Last for T where T: Next, Of<T>: Next {}
impl<T> All for T {}
fn is_next<T: Next>() {}
fn is_last<T: Last>() {}
fn is_all<T: All>() {}
fn main() {
    is_next::<Yes>();
    is_next::<No>();
    is_next::<Of<Of<Yes>>>();
    is_last::<Yes>();
    is_last::<Of<No>>();
    is_all::<No>();
    is_all::<fn(&'static str) -> [No; 3]>();
}
