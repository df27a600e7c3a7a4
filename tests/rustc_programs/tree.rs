// A tree of two kinds of nodes, and an auto trait of our own.
#![feature(auto_traits, negative_impls)]
enum Tree<K, V> { Leaf, Node(Box<Tree<K, V>>, K, V, Box<Tree<K, V>>) }
struct Handle;
auto trait Portable {}
impl !Portable for Handle {}
impl<T: ?Sized + Portable> Portable for Box<T> {}
fn is_portable<T: Portable>() {}
fn main() {
    is_portable::<Tree<i32, bool>>();
    is_portable::<Tree<i32, Handle>>();
    is_portable::<Tree<Tree<u8, u8>, ()>>();
    is_portable::<Tree<Tree<u8, Handle>, ()>>();
}
