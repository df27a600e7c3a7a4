//! Tests of numbers that look random.

use crate::chance::Chance;
use std::process::Abort;

#[test]
fn a_seed_gives_the_same_numbers_each_time(rt: HostRuntime) {
    let (same, other) = compare();
    assert_eq!(rt; same, 100);
    assert!(rt; other < 10, "{other}");
}

/// How many of a hundred numbers below a thousand are those of the same seed, and of another one.
fn compare() -> (usize, usize) {
    let mut one = Chance::new(7);
    let mut same = Chance::new(7);
    let mut other = Chance::new(8);
    let mut counts = (0usize, 0usize);
    for _ in 0..100usize {
        let number = one.below(1000);
        if number == same.below(1000) {
            counts.0 = counts.0.saturating_add(1);
        }
        if number == other.below(1000) {
            counts.1 = counts.1.saturating_add(1);
        }
    }
    counts
}

#[test]
fn each_number_is_below_the_end(rt: HostRuntime) {
    let mut chance = Chance::new(1);
    let mut beyond = 0usize;
    for end in 1..1000usize {
        if chance.below(end) >= end {
            beyond = beyond.saturating_add(1);
        }
    }
    assert_eq!(rt; beyond, 0);
    assert_eq!(rt; chance.below(1), 0);
    assert_eq!(rt; chance.below(0), 0);
}

#[test]
fn each_number_comes_about_as_often(rt: HostRuntime) {
    let mut chance = Chance::new(1);
    let mut hits = 0usize;
    for _ in 0..10_000usize {
        if chance.once_in(10) {
            hits = hits.saturating_add(1);
        }
    }
    assert!(rt; hits > 800 && hits < 1200, "{hits}");
}
