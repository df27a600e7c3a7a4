// Types without fields, of each form.
#![feature(auto_traits, negative_impls)]
struct Unit;
struct Braces {}
struct Parens();
enum Empty {}
enum Plain { A, B, C }
auto trait Free {}
impl !Free for Parens {}
fn is_free<T: Free>() {}
fn main() {
    is_free::<Unit>();
    is_free::<Braces>();
    is_free::<Parens>();
    is_free::<Empty>();
    is_free::<Plain>();
    is_free::<()>();
    is_free::<(Unit, Parens)>();
}
