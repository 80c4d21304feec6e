//! `faults`: inputs on which petgraph panics, each caught and told. Ends with status 1 where one does not panic.
//! The first four are ids that petgraph hands out itself, or the reversed pair of a link that is there.

use std::panic::{catch_unwind, set_hook, AssertUnwindSafe};
use std::process::ExitCode;

use petgraph::data::Build;
use petgraph::graphmap::{DiGraphMap, UnGraphMap};
use petgraph::visit::{EdgeIndexable, EdgeRef, NodeIndexable};

/// Whether the call panics; what it answered or said is printed.
fn panics<T: std::fmt::Debug>(what: &str, call: impl FnOnce() -> T) -> bool {
    match catch_unwind(AssertUnwindSafe(call)) {
        Ok(answer) => {
            println!("{what}: {answer:?}");
            false
        }
        Err(said) => {
            let text = said.downcast_ref::<&str>().map(|text| text.to_string());
            let text = text.or_else(|| said.downcast_ref::<String>().cloned());
            println!("{what}: panics, {:?}", text.unwrap_or_default());
            true
        }
    }
}

fn main() -> ExitCode {
    set_hook(Box::new(|_| {}));
    let mut map = UnGraphMap::<u32, u32>::new();
    map.add_edge(9, 4, 5);
    println!("Undirected map, add_edge(9, 4, 5):");
    let stored = map.all_edges().next().map(|link| link.id());
    println!("  the id by all_edges: {stored:?}");
    let handed_out = map.edges(9).next().map(|link| link.id());
    println!("  the id by edges(9): {handed_out:?}");
    let mut expected = true;
    expected &= !panics("  to_index((4, 9))", || {
        EdgeIndexable::to_index(&map, (4, 9))
    });
    expected &= panics("  to_index((9, 4))", || {
        EdgeIndexable::to_index(&map, (9, 4))
    });
    expected &= panics("  to_index of the id by edges(9)", || {
        EdgeIndexable::to_index(&map, handed_out.unwrap())
    });
    let updated = Build::update_edge(&mut map, 9, 4, 6);
    expected &= panics("  to_index of the id by Build::update_edge", || {
        EdgeIndexable::to_index(&map, updated)
    });
    let added = Build::add_edge(&mut map, 9, 5, 7).unwrap();
    expected &= panics("  to_index of the id by Build::add_edge", || {
        EdgeIndexable::to_index(&map, added)
    });

    let mut map = DiGraphMap::<u32, u32>::new();
    map.add_edge(7, 9, 5);
    println!("Directed map, add_edge(7, 9, 5):");
    expected &= panics("  NodeIndexable::to_index(4)", || {
        NodeIndexable::to_index(&map, 4)
    });
    expected &= panics("  NodeIndexable::from_index(2)", || {
        NodeIndexable::from_index(&map, 2)
    });
    expected &= panics("  EdgeIndexable::to_index((9, 7))", || {
        EdgeIndexable::to_index(&map, (9, 7))
    });
    expected &= panics("  EdgeIndexable::from_index(1)", || {
        EdgeIndexable::from_index(&map, 1)
    });
    expected &= panics("  map[(9, 7)]", || map[(9, 7)]);
    match expected {
        true => ExitCode::SUCCESS,
        false => ExitCode::FAILURE,
    }
}
