// A list is `Send` by a cycle: its fields are `Send` if the list is, and nothing stands against that.
unsafe auto trait Send {}
struct Box<T>(T);
enum Option<T> { None, Some(T) }
struct List<T> { head: T, tail: Option<Box<List<T>>> }

List<i32>: Send?
