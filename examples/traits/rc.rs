// An `Rc` deep inside a type spoils it. Ask with --why, and the lines lead to it.
unsafe auto trait Send {}
struct Rc<T>(T);
impl<T> !Send for Rc<T> {}
struct Vec<T>(T);
struct Session { user: User, open: Vec<Request> }
struct User { name: str, id: u64 }
struct Request { path: str, body: Body }
enum Body { Empty, Bytes(Vec<u8>), Shared(Rc<str>) }

Session: Send?
User: Send?
