//! Tests of the checker of graphs: graphs made by hand, graphs that were handed out and then changed at random, large ones, and
//! those of long searches. Each answer on a changed graph is laid beside that of a plain check.

mod changes;
mod hostile;
mod large;
mod plain;
mod rows;
mod searched;
