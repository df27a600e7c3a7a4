//! Tests of stored results that are validated. The delegate around a table's, or around scripts, gives a scope for the goals
//! that a test names, and a journal has when scopes and frames begin and are dropped. A test stores results itself, also
//! such as the search comes to for no goal, and asks.

mod acts;
mod cases;
mod disorder;
mod put;
