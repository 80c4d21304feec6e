//! Stand-in for petgraph's prelude.rs, which is not among the given sources: the one name that is needed.

pub use crate::Direction;
