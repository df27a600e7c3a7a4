//! Tests of what stands below the search, by tables: each row has a name, what is done, and what is left then, told as text.
//!
//! | Module | Has tests of |
//! |---|---|
//! | `paths`, `usages`, `heads`, `candidates` | what cycles are recorded by |
//! | `nested_goals`, `stack`, `depths`, `results` | the goals under evaluation |
//! | `reuse`, `rebasing` | the provisional cache: which entries are used, cleared and rebased |
//! | `stored`, `nodes` | the global cache: stored results, nodes, and graphs that are handed out |
//! | `forgetting` | nodes of goals that are forgotten, beside a plain list |
//! | `components` | strongly connected components |
//! | `names` | names that hash alike, with memory refused |
//! | `declarations` | texts that declare types and traits, and types as texts |
//! | `rows` | rules as rows: those of a text's table, and rows that are not in order |
//! | `changes` | rows that change, and the goals that this concerns |
//! | `open_tables` | rules that change, and the goals that a change concerns, with memory refused |
//! | `random` | numbers that look random |
//! | `faults` | the texts of faults |
//!
//! `told` says how things are told, `entries` has entries of the provisional cache, and `storing` stores results of goals that
//! ask themselves.

mod candidates;
mod changes;
mod components;
mod declarations;
mod depths;
mod entries;
mod faults;
mod forgetting;
mod heads;
mod names;
mod nested_goals;
mod nodes;
mod open_tables;
mod paths;
mod random;
mod rebasing;
mod results;
mod reuse;
mod rows;
mod stack;
mod stored;
mod storing;
mod told;
mod usages;
