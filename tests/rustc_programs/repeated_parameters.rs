// Heads in which a parameter stands more than once.
trait Same {}
struct Three<A, B, C>(A, B, C);
impl<T> Same for (T, T) {}
impl<T> Same for Three<T, Vec<T>, (T, Vec<T>)> {}
impl<A, B> Same for [Three<A, B, A>; 1] where (A, B): Same {}
fn is_same<T: Same>() {}
fn main() {
    is_same::<(i32, i32)>();
    is_same::<(i32, u32)>();
    is_same::<((), ())>();
    is_same::<(Vec<(i32, u8)>, Vec<(i32, u8)>)>();
    is_same::<(Vec<(i32, u8)>, Vec<(u8, i32)>)>();
    is_same::<Three<u8, Vec<u8>, (u8, Vec<u8>)>>();
    is_same::<Three<u8, Vec<u8>, (u8, Vec<i8>)>>();
    is_same::<[Three<u8, u8, u8>; 1]>();
    is_same::<[Three<u8, i8, u8>; 1]>();
    is_same::<[Three<u8, u8, i8>; 1]>();
}
