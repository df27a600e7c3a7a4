//! Tests of searches: over tables of rules, and of the uses of the library.
//!
//! | Module | Has tests of |
//! |---|---|
//! | `checker` | the checker, on graphs made by hand, changed at random, made by a rule, and handed out by long searches |
//! | `validation` | stored results that are validated |
//! | `frames` | frames that are refused memory |
//! | `lent` | rules that are lent by a reference, changed, and lent again |
//! | `lists` | a long list of queries with faults among them |
//! | `sessions` | rules in arrays, graphs as words, and goals that are wanted |
//! | `uses` | games, services, blocks that a write may reach, shapes, and subtypes |
//!
//! `asking` asks goals on a graph of their own, `stored` tells what is stored of a table's goals, and `handed_out` has the graphs that are handed out for them, and the
//! checker's word on any graph.

mod asking;
mod checker;
mod frames;
mod handed_out;
mod lent;
mod lists;
mod sessions;
mod stored;
mod uses;
mod validation;
