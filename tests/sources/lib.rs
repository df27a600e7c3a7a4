//! Tests that nothing proves. `tests/unproved` runs them.
//!
//! | Module | Has tests of |
//! |---|---|
//! | `parts` | what stands below the search |
//! | `tables` | the search, by a text of runs: worked examples, runs of the original, and tables that are drawn |
//! | `searches` | searches, by functions of their own, and the uses of the library |
//! | `programs` | the programs, of what no text shows |
//!
//! They share `chance`, numbers that look random, and `accepted`, whether the checker accepts a graph that is handed out.

mod accepted;
mod chance;
mod parts;
mod programs;
mod searches;
mod tables;
