//! Tests of strongly connected components.

use crate::parts::told::Told;
use std::alloc::{AllocError, Global};
use std::test::Fail;
use strong_components::{components, stays_inside};

/// How many places a graph has, its steps, and the number of each place's component.
const ROWS: [(&str, usize, &[(usize, usize)], &str); 8] = [
    ("no place", 0, &[], ""),
    ("one place", 1, &[], " 0"),
    ("a step to itself", 1, &[(0, 0)], " 0"),
    ("a chain", 3, &[(0, 1), (1, 2)], " 2 1 0"),
    ("a cycle", 3, &[(0, 1), (1, 2), (2, 0)], " 0 0 0"),
    (
        "a cycle between a place above and one below",
        5,
        &[(0, 1), (1, 2), (1, 3), (2, 0), (3, 3), (4, 0), (4, 3)],
        " 1 1 1 0 2",
    ),
    (
        "two cycles that do not reach each other",
        5,
        &[(0, 1), (1, 0), (1, 2), (2, 3), (3, 2), (3, 2), (4, 4)],
        " 1 1 0 0 2",
    ),
    (
        "a step out of the graph",
        2,
        &[(0, 1), (1, 2)],
        "a step leads out",
    ),
];

#[test]
fn small_graphs_have_their_components(rt: HostRuntime) -> Result<(), Fail> {
    for (name, count, steps, wanted) in ROWS {
        let mut told = Told::new(rt.alloc());
        tell(rt.alloc(), &mut told, count, steps)?;
        let told = told.text()?;
        assert_eq!(rt; told.as_str(), wanted, "{name}");
    }
    Ok(())
}

/// The numbers of the components.
fn tell(
    alloc: Global,
    told: &mut Told,
    count: usize,
    steps: &[(usize, usize)],
) -> Result<(), AllocError> {
    let Some(numbers) = numbers_of(alloc, count, steps)? else {
        told.say("a step leads out");
        return Ok(());
    };
    for number in &numbers {
        told.number(" ", *number);
    }
    Ok(())
}

/// The component numbers of a graph whose steps stay inside, and else none.
fn numbers_of(
    alloc: Global,
    count: usize,
    steps: &[(usize, usize)],
) -> Result<Option<Vec<usize>>, AllocError> {
    let graph = graph_of(alloc, count, steps)?;
    if !stays_inside(&graph) {
        return Ok(None);
    }
    Ok(Some(components(alloc, &graph)?))
}

/// The successors of each place.
fn graph_of(
    alloc: Global,
    count: usize,
    steps: &[(usize, usize)],
) -> Result<Vec<Vec<usize>>, AllocError> {
    let mut graph: Vec<Vec<usize>> = Vec::new(alloc);
    for _ in 0..count {
        graph.push(Vec::new(alloc))?;
    }
    for (from, to) in steps {
        if let Some(successors) = graph.get_mut(*from) {
            successors.push(*to)?;
        }
    }
    Ok(graph)
}

#[test]
fn a_ring_is_one_component(rt: HostRuntime) -> Result<(), Fail> {
    assert_eq!(rt; zeros_of_ring(rt.alloc())?, 1000);
    Ok(())
}

/// How many places of a ring of a thousand are in the component of number 0.
fn zeros_of_ring(alloc: Global) -> Result<usize, AllocError> {
    let mut steps = Vec::new(alloc);
    for place in 0..1000usize {
        steps.push((place, (place + 1) % 1000))?;
    }
    let Some(numbers) = numbers_of(alloc, 1000, &steps)? else {
        return Ok(0);
    };
    Ok(zeros_in(&numbers))
}

/// How many of the numbers are 0, if all are.
fn zeros_in(numbers: &[usize]) -> usize {
    for number in numbers {
        if *number > 0 {
            return 0;
        }
    }
    numbers.len()
}
