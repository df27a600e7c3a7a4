// Heads with types in types.
trait Deep {}
struct Of<T>(T);
struct Two<A, B>(A, B);
impl<T> Deep for Of<Of<T>> {}
impl<A, B> Deep for Of<Two<A, Of<B>>> {}
impl<T> Deep for Two<Vec<T>, (T, u8)> {}
impl<T> Deep for Two<&T, [T; 4]> {}
fn is_deep<T: Deep>() {}
fn main() {
    is_deep::<Of<Of<i32>>>();
    is_deep::<Of<i32>>();
    is_deep::<Of<Of<Of<i32>>>>();
    is_deep::<Of<Two<i32, Of<u8>>>>();
    is_deep::<Of<Two<Of<i32>, u8>>>();
    is_deep::<Two<Vec<i32>, (i32, u8)>>();
    is_deep::<Two<Vec<i32>, (u8, u8)>>();
    is_deep::<Two<Vec<u8>, (u8, u8)>>();
    is_deep::<Two<&char, [char; 4]>>();
    is_deep::<Two<&char, [char; 3]>>();
    is_deep::<Two<&mut char, [char; 4]>>();
}
