//! What the example tells is what is stored beside this.
#[allow(dead_code)]
#[path = "../examples/auto_traits.rs"]
mod auto_traits;

#[test]
fn the_example_tells_what_is_stored() {
    let wanted = include_str!("auto_traits.txt");
    assert_eq!(auto_traits::report().unwrap(), wanted);
}
