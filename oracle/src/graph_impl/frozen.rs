//! Stand-in for petgraph's graph_impl/frozen.rs, which is not among the given sources: the shared access alone.

use core::ops::Deref;

use super::Frozen;

impl<G> Deref for Frozen<'_, G> {
    type Target = G;
    fn deref(&self) -> &G {
        self.0
    }
}
