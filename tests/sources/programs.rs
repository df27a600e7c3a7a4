//! Tests of the programs over tables of rules, of what no text that they are given shows: where their streams fail, where a
//! goal has fewer runs than theirs, and how faults are called and shown that no rule has. What they write of texts is
//! compared outside, by `tests/texts`.

mod causes;
mod failing;
mod faults;
mod limit;
mod pages;
mod streams;
