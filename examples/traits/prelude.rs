// What std declares of its types that matters to `Send`, `Sync`, `Sized`, `Copy` and `Clone`, and to auto traits of
// your own: fields are as std's, but for allocators, and for parts that have all these traits anyway.
// `Copy` and `Clone` are there for tuples of up to four parts, arrays of up to eight, functions of up to three.

// All types are sized but `str`, slices, `dyn` types and what holds one of them in place.
auto trait Sized {}
impl !Sized for str {}
impl<T> !Sized for [T] {}
impl<T: ?Sized> Sized for &T {}
impl<T: ?Sized> Sized for &mut T {}
impl<T: ?Sized> Sized for *const T {}
impl<T: ?Sized> Sized for *mut T {}
impl<T: ?Sized> Sized for PhantomData<T> {}

unsafe auto trait Send {}
impl<T: ?Sized> !Send for *const T {}
impl<T: ?Sized> !Send for *mut T {}
unsafe impl<T: ?Sized + Sync> Send for &T {}

unsafe auto trait Sync {}
impl<T: ?Sized> !Sync for *const T {}
impl<T: ?Sized> !Sync for *mut T {}

trait Clone: Sized {}
trait Copy: Clone {}

// Pointers that own what they point to.

struct PhantomData<T: ?Sized>(T);
impl<T: ?Sized> Clone for PhantomData<T> {}
impl<T: ?Sized> Copy for PhantomData<T> {}

struct NonNull<T: ?Sized> { pointer: *const T }
impl<T: ?Sized> !Send for NonNull<T> {}
impl<T: ?Sized> !Sync for NonNull<T> {}
impl<T: ?Sized> Clone for NonNull<T> {}
impl<T: ?Sized> Copy for NonNull<T> {}

struct Unique<T: ?Sized> { pointer: NonNull<T>, _marker: PhantomData<T> }
unsafe impl<T: ?Sized + Send> Send for Unique<T> {}
unsafe impl<T: ?Sized + Sync> Sync for Unique<T> {}

struct Box<T: ?Sized>(Unique<T>);
impl<T: Clone> Clone for Box<T> {}
impl<T: Clone> Clone for Box<[T]> {}
impl Clone for Box<str> {}

struct RawVecInner { ptr: Unique<u8>, cap: usize }
struct RawVec<T> { inner: RawVecInner, _marker: PhantomData<T> }
struct Vec<T> { buf: RawVec<T>, len: usize }
impl<T: Clone> Clone for Vec<T> {}

struct String { vec: Vec<u8> }
impl Clone for String {}

// Pointers that share it.

struct RcInner<T: ?Sized> { strong: Cell<usize>, weak: Cell<usize>, value: T }
struct Rc<T: ?Sized> { ptr: NonNull<RcInner<T>>, phantom: PhantomData<RcInner<T>> }
impl<T: ?Sized> !Send for Rc<T> {}
impl<T: ?Sized> !Sync for Rc<T> {}
impl<T: ?Sized> Clone for Rc<T> {}

struct ArcInner<T: ?Sized> { strong: AtomicUsize, weak: AtomicUsize, data: T }
unsafe impl<T: ?Sized + Sync + Send> Send for ArcInner<T> {}
unsafe impl<T: ?Sized + Sync + Send> Sync for ArcInner<T> {}
struct Arc<T: ?Sized> { ptr: NonNull<ArcInner<T>>, phantom: PhantomData<ArcInner<T>> }
unsafe impl<T: ?Sized + Sync + Send> Send for Arc<T> {}
unsafe impl<T: ?Sized + Sync + Send> Sync for Arc<T> {}
impl<T: ?Sized> Clone for Arc<T> {}

// Cells and locks.

struct UnsafeCell<T: ?Sized> { value: T }
impl<T: ?Sized> !Sync for UnsafeCell<T> {}

struct Cell<T: ?Sized> { value: UnsafeCell<T> }
unsafe impl<T: ?Sized + Send> Send for Cell<T> {}
impl<T: ?Sized> !Sync for Cell<T> {}
impl<T: Copy> Clone for Cell<T> {}

struct RefCell<T: ?Sized> { borrow: Cell<isize>, value: UnsafeCell<T> }
unsafe impl<T: ?Sized + Send> Send for RefCell<T> {}
impl<T: ?Sized> !Sync for RefCell<T> {}
impl<T: Clone> Clone for RefCell<T> {}

struct AtomicBool { v: UnsafeCell<u8> }
unsafe impl Sync for AtomicBool {}
struct AtomicU32 { v: UnsafeCell<u32> }
unsafe impl Sync for AtomicU32 {}
struct AtomicUsize { v: UnsafeCell<usize> }
unsafe impl Sync for AtomicUsize {}

struct Mutex<T: ?Sized> { inner: AtomicU32, poison: AtomicBool, data: UnsafeCell<T> }
unsafe impl<T: ?Sized + Send> Send for Mutex<T> {}
unsafe impl<T: ?Sized + Send> Sync for Mutex<T> {}
struct MutexGuard<'a, T: ?Sized> { lock: &'a Mutex<T>, poison: bool }
impl<T: ?Sized> !Send for MutexGuard<'_, T> {}
unsafe impl<T: ?Sized + Sync> Sync for MutexGuard<'_, T> {}

struct RwLock<T: ?Sized> { inner: AtomicU32, writers: AtomicU32, poison: AtomicBool, data: UnsafeCell<T> }
unsafe impl<T: ?Sized + Send> Send for RwLock<T> {}
unsafe impl<T: ?Sized + Send + Sync> Sync for RwLock<T> {}

// What holds values in place, and tables.

enum Option<T> { None, Some(T) }
impl<T: Clone> Clone for Option<T> {}
impl<T: Copy> Copy for Option<T> {}

enum Result<T, E> { Ok(T), Err(E) }
impl<T: Clone, E: Clone> Clone for Result<T, E> {}
impl<T: Copy, E: Copy> Copy for Result<T, E> {}

struct RawTable<T> { ctrl: NonNull<u8>, mask: usize, marker: PhantomData<T> }
unsafe impl<T: Send> Send for RawTable<T> {}
unsafe impl<T: Sync> Sync for RawTable<T> {}
struct HashMap<K, V> { keys: (u64, u64), table: RawTable<(K, V)> }
impl<K: Clone, V: Clone> Clone for HashMap<K, V> {}

// What is built in.

impl Clone for bool {} impl Clone for char {} impl Clone for i8 {} impl Clone for i16 {} impl Clone for i32 {}
impl Clone for i64 {} impl Clone for i128 {} impl Clone for isize {} impl Clone for u8 {} impl Clone for u16 {}
impl Clone for u32 {} impl Clone for u64 {} impl Clone for u128 {} impl Clone for usize {} impl Clone for f32 {}
impl Clone for f64 {} impl Clone for ! {}
impl Copy for bool {} impl Copy for char {} impl Copy for i8 {} impl Copy for i16 {} impl Copy for i32 {}
impl Copy for i64 {} impl Copy for i128 {} impl Copy for isize {} impl Copy for u8 {} impl Copy for u16 {}
impl Copy for u32 {} impl Copy for u64 {} impl Copy for u128 {} impl Copy for usize {} impl Copy for f32 {}
impl Copy for f64 {} impl Copy for ! {}

impl<T: ?Sized> Clone for &T {}
impl<T: ?Sized> Clone for *const T {}
impl<T: ?Sized> Clone for *mut T {}
impl Clone for () {}
impl<A: Clone> Clone for (A,) {}
impl<A: Clone, B: Clone> Clone for (A, B) {}
impl<A: Clone, B: Clone, C: Clone> Clone for (A, B, C) {}
impl<A: Clone, B: Clone, C: Clone, D: Clone> Clone for (A, B, C, D) {}
impl<R> Clone for fn() -> R {}
impl<A, R> Clone for fn(A) -> R {}
impl<A, B, R> Clone for fn(A, B) -> R {}
impl<A, B, C, R> Clone for fn(A, B, C) -> R {}
impl<T: Clone> Clone for [T; 0] {}
impl<T: Clone> Clone for [T; 1] {}
impl<T: Clone> Clone for [T; 2] {}
impl<T: Clone> Clone for [T; 3] {}
impl<T: Clone> Clone for [T; 4] {}
impl<T: Clone> Clone for [T; 5] {}
impl<T: Clone> Clone for [T; 6] {}
impl<T: Clone> Clone for [T; 7] {}
impl<T: Clone> Clone for [T; 8] {}

impl<T: ?Sized> Copy for &T {}
impl<T: ?Sized> Copy for *const T {}
impl<T: ?Sized> Copy for *mut T {}
impl Copy for () {}
impl<A: Copy> Copy for (A,) {}
impl<A: Copy, B: Copy> Copy for (A, B) {}
impl<A: Copy, B: Copy, C: Copy> Copy for (A, B, C) {}
impl<A: Copy, B: Copy, C: Copy, D: Copy> Copy for (A, B, C, D) {}
impl<R> Copy for fn() -> R {}
impl<A, R> Copy for fn(A) -> R {}
impl<A, B, R> Copy for fn(A, B) -> R {}
impl<A, B, C, R> Copy for fn(A, B, C) -> R {}
impl<T: Copy> Copy for [T; 0] {}
impl<T: Copy> Copy for [T; 1] {}
impl<T: Copy> Copy for [T; 2] {}
impl<T: Copy> Copy for [T; 3] {}
impl<T: Copy> Copy for [T; 4] {}
impl<T: Copy> Copy for [T; 5] {}
impl<T: Copy> Copy for [T; 6] {}
impl<T: Copy> Copy for [T; 7] {}
impl<T: Copy> Copy for [T; 8] {}
