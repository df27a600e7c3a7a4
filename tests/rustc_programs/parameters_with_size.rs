// A parameter of a function has a size in its body, unless the function says otherwise.
struct Of<T>(T);
struct Last<T: ?Sized>(u8, T);
fn is_sized<T: Sized>(_: &T) {}
fn has_size<T: Sized>() {}
fn of_each<T, U: ?Sized, V>(x: &T, y: (T, u8), z: Of<T>) where V: ?Sized {
    is_sized(x);
    is_sized(&x);
    is_sized(&y);
    is_sized(&z);
    has_size::<U>();
    has_size::<V>();
    has_size::<Last<T>>();
    has_size::<Last<U>>();
    has_size::<&V>();
    has_size::<[T; 2]>();
    has_size::<[T]>();
    has_size::<Option<T>>();
    has_size::<Box<U>>();
}
fn of_traits<T: Copy, U: Send + ?Sized, V: Sized + ?Sized>(x: &U) {
    has_size::<T>();
    has_size::<U>();
    has_size::<V>();
    is_sized(&x);
}
