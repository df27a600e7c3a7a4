// A type that holds one of a larger type asks about ever larger types. No depth is enough, so the answer is maybe, unless something
// else decides: `Stopped` has a field that is not `Send`, which is found beside it.
#![recursion_limit = "20"]
unsafe auto trait Send {}
struct Rc<T>(T);
impl<T> !Send for Rc<T> {}
struct Box<T>(T);
enum Nested<T> { End, More(T, Box<Nested<(T, T)>>) }
struct Stopped<T>(Nested<T>, Rc<T>);

Nested<i32>: Send?
Stopped<i32>: Send?
