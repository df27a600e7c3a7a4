// With `--definitions` each impl is asked about: whether its type implements what stands above its trait.
trait Super {}
trait Sub: Super {}
struct List<T>(T);
struct Pair<T, U>(T, U);
impl<T: Super> Super for List<T> {}
// It does, since `T: Sub` has `T: Super` above it.
impl<T: Sub> Sub for List<T> {}
// It does where this impl may be used.
impl<T, U> Sub for Pair<T, U> where Pair<T, U>: Super {}
// It does not.
impl Sub for i32 {}
