// Of a bound that is assumed, the traits above it hold, too, and those above these.
trait Top {}
trait Left: Top {}
trait Right: Top + Send {}
trait Bottom: Left + Right {}
trait Beside {}
struct Of<T>(T);
impl<T: Top> Top for Of<T> {}
impl<T: Left> Beside for Of<T> {}
fn is_top<T: Top>(_: T) {}
fn is_left<T: Left>(_: T) {}
fn is_right<T: Right>(_: T) {}
fn is_bottom<T: Bottom>(_: T) {}
fn is_beside<T: Beside>(_: T) {}
fn is_send<T: Send>(_: T) {}
fn by_bottom<T: Bottom>(x: T, y: Of<T>) {
    is_top(x);
    is_left(x);
    is_right(x);
    is_bottom(x);
    is_send(x);
    is_send(y);
    is_top(y);
    is_left(y);
    is_beside(y);
}
fn by_right<T: Right>(x: T, y: Of<T>) {
    is_top(x);
    is_left(x);
    is_bottom(x);
    is_send(x);
    is_top(y);
    is_beside(y);
}
fn by_top<T: Top>(x: T) {
    is_top(x);
    is_right(x);
    is_send(x);
}
fn by_type<T>(x: T, y: Of<T>, z: Of<Of<T>>) where Of<T>: Bottom {
    is_top(x);
    is_top(y);
    is_bottom(y);
    is_send(y);
    is_send(x);
    is_send(z);
    is_beside(z);
    is_beside(y);
}
