// One goal that is needed in many ways.
trait Leaf {}
trait Node {}
struct Of<A, B>(A, B);
impl Leaf for i32 {}
impl Node for i32 {}
impl<A: Node, B: Node> Node for Of<A, B> where A: Leaf, B: Leaf, Of<B, A>: Leaf {}
impl<A: Leaf, B: Leaf> Leaf for Of<A, B> {}
fn is_node<T: Node>() {}
fn main() {
    is_node::<Of<i32, i32>>();
    is_node::<Of<Of<i32, i32>, Of<i32, i32>>>();
    is_node::<Of<Of<Of<i32, i32>, i32>, Of<i32, Of<i32, i32>>>>();
    is_node::<Of<Of<Of<i32, i32>, i32>, Of<i32, Of<i32, u8>>>>();
}
