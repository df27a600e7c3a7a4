#![doc = include_str!("../README.md")]
#![deny(missing_docs)]

mod error;
mod ffi;
mod graph;
mod reason;
mod session;
mod solver;
mod table;
pub mod texts;

pub use error::{Cause, Error};
pub use graph::{Edge, Graph, Node, Reply};
pub use reason::{Cut, Reason, Why};
pub use session::{Answer, NodeId, Outcome, Session};
pub use solver::{Rules, Solver};
pub use table::{Candidate, Goal, PathKind, Question, Table};
pub use texts::{Form, Lines};
