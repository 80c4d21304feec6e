//! petgraph's answers held against each other. Where two disagree, a line `driver: MISMATCH ..` is printed.

use std::io::{self, Write};

use petgraph::data::DataMap;
use petgraph::graph::{Graph, IndexType};
use petgraph::visit::{
    EdgeCount, EdgeIndexable, GetAdjacencyMatrix, GraphProp, IntoEdgeReferences, IntoEdges,
    IntoEdgesDirected, IntoNeighbors, IntoNeighborsDirected, IntoNodeIdentifiers,
    IntoNodeReferences, NodeCount, NodeIndexable,
};
use petgraph::{Direction, Incoming, Outgoing};

use crate::keys::{Key, Price};
use crate::room::{place, Kind, Map};

/// Maps with more links are not made into a Graph at each `counts`.
const SMALL: usize = 64;

pub fn that(good: bool, what: &str, out: &mut impl Write) -> io::Result<()> {
    if good {
        return Ok(());
    }
    writeln!(out, "driver: MISMATCH: {what}")
}

/// Two maps with the same nodes, rows and links, in the same order.
pub fn same<N: Key, Ty: Kind>(
    what: &str,
    one: &Map<N, Ty>,
    other: &Map<N, Ty>,
    out: &mut impl Write,
) -> io::Result<()> {
    that(one.nodes.iter().eq(other.nodes.iter()), what, out)?;
    that(one.all_edges().eq(other.all_edges()), what, out)
}

/// `from_edges`, from a list of triples and from a borrowed one, makes what `add_edge` makes.
pub fn from_edges<N: Key, Ty: Kind>(
    items: &[(N, N, Price)],
    out: &mut impl Write,
) -> io::Result<()> {
    let mut one_by_one = Map::<N, Ty>::new();
    for &(a, b, price) in items {
        one_by_one.add_edge(a, b, price);
    }
    let owned = Map::<N, Ty>::from_edges(items.to_vec());
    let borrowed = Map::<N, Ty>::from_edges(items);
    same("from_edges of triples", &owned, &one_by_one, out)?;
    same(
        "from_edges of borrowed triples",
        &borrowed,
        &one_by_one,
        out,
    )
}

pub fn price<N: Key, Ty: Kind>(
    map: &Map<N, Ty>,
    a: N,
    b: N,
    out: &mut impl Write,
) -> io::Result<()> {
    let price = map.edge_weight(a, b);
    that(
        map.contains_edge(a, b) == price.is_some(),
        "contains_edge and edge_weight",
        out,
    )?;
    that(
        map.is_adjacent(&(), a, b) == price.is_some(),
        "is_adjacent and edge_weight",
        out,
    )?;
    that(
        DataMap::edge_weight(map, (a, b)) == price,
        "DataMap and edge_weight",
        out,
    )?;
    that(
        map.is_directed() || map.edge_weight(b, a) == price,
        "the reversed pair",
        out,
    )?;
    if let Some(&price) = price {
        that(map[(a, b)] == price, "Index by pair and edge_weight", out)?;
        let key = EdgeIndexable::from_index(map, place(map, a, b));
        that(
            key == Map::<N, Ty>::edge_key(a, b),
            "the place of a link and back",
            out,
        )?;
        that(
            map.contains_node(a) && map.contains_node(b),
            "the ends of a link are nodes",
            out,
        )?;
    }
    Ok(())
}

pub fn link_at<N: Key, Ty: Kind>(
    map: &Map<N, Ty>,
    index: usize,
    a: N,
    b: N,
    out: &mut impl Write,
) -> io::Result<()> {
    that(
        EdgeIndexable::to_index(map, (a, b)) == index,
        "all_edges and the place of a link",
        out,
    )?;
    that(
        EdgeIndexable::from_index(map, index) == (a, b),
        "all_edges and the link of a place",
        out,
    )?;
    that(
        map.is_directed() || a <= b,
        "the smaller end comes first in an Undirected map",
        out,
    )
}

pub fn links<N: Key, Ty: Kind>(map: &Map<N, Ty>, out: &mut impl Write) -> io::Result<()> {
    that(
        map.edge_references().eq(map.all_edges()),
        "edge_references and all_edges",
        out,
    )?;
    that(
        map.all_edges().count() == map.edge_count(),
        "all_edges and edge_count",
        out,
    )
}

pub fn node_at<N: Key, Ty: Kind>(
    map: &Map<N, Ty>,
    index: usize,
    k: N,
    out: &mut impl Write,
) -> io::Result<()> {
    that(map.contains_node(k), "nodes and contains_node", out)?;
    that(
        NodeIndexable::to_index(map, k) == index,
        "nodes and the place of a node",
        out,
    )?;
    that(
        NodeIndexable::from_index(map, index) == k,
        "nodes and the node of a place",
        out,
    )?;
    that(map.node_weight(k) == Some(&k), "nodes and node_weight", out)
}

pub fn nodes<N: Key, Ty: Kind>(map: &Map<N, Ty>, out: &mut impl Write) -> io::Result<()> {
    that(
        map.node_identifiers().eq(map.nodes()),
        "node_identifiers and nodes",
        out,
    )?;
    that(
        map.node_references().map(|(k, _)| k).eq(map.nodes()),
        "node_references and nodes",
        out,
    )?;
    that(
        map.nodes().len() == map.node_count(),
        "nodes and node_count",
        out,
    )
}

pub fn neighbors<N: Key, Ty: Kind>(
    map: &Map<N, Ty>,
    k: N,
    direction: Option<Direction>,
    found: &[N],
    out: &mut impl Write,
) -> io::Result<()> {
    let direction = direction.unwrap_or(Outgoing);
    let again: Vec<N> = IntoNeighborsDirected::neighbors_directed(map, k, direction).collect();
    that(again == found, "neighbors and neighbors_directed", out)?;
    if direction == Outgoing || !map.is_directed() {
        let again: Vec<N> = IntoNeighbors::neighbors(map, k).collect();
        that(again == found, "neighbors_directed and neighbors", out)?;
    }
    for &m in found {
        let (a, b) = if direction == Outgoing {
            (k, m)
        } else {
            (m, k)
        };
        that(map.contains_edge(a, b), "neighbors and contains_edge", out)?;
    }
    Ok(())
}

pub fn edges<N: Key, Ty: Kind>(
    map: &Map<N, Ty>,
    k: N,
    direction: Option<Direction>,
    found: &[(N, N, &Price)],
    out: &mut impl Write,
) -> io::Result<()> {
    let direction = direction.unwrap_or(Outgoing);
    let again: Vec<(N, N, &Price)> = IntoEdgesDirected::edges_directed(map, k, direction).collect();
    that(again == found, "edges and edges_directed", out)?;
    if direction == Outgoing {
        let again: Vec<(N, N, &Price)> = IntoEdges::edges(map, k).collect();
        that(again == found, "edges_directed and edges", out)?;
    }
    let ends = map
        .neighbors_directed(k, direction)
        .map(|m| match direction {
            Outgoing => (k, m),
            Incoming => (m, k),
        });
    that(
        ends.eq(found.iter().map(|&(a, b, _)| (a, b))),
        "edges and neighbors",
        out,
    )?;
    for &(a, b, price) in found {
        that(map[(a, b)] == *price, "edges and Index by pair", out)?;
    }
    Ok(())
}

pub fn counts<N: Key, Ty: Kind>(map: &Map<N, Ty>, out: &mut impl Write) -> io::Result<()> {
    that(
        map.node_bound() == map.node_count(),
        "node_bound and node_count",
        out,
    )?;
    that(
        map.edge_bound() == map.edge_count(),
        "edge_bound and edge_count",
        out,
    )?;
    that(
        NodeCount::node_count(map) == map.node_count(),
        "NodeCount and node_count",
        out,
    )?;
    that(
        EdgeCount::edge_count(map) == map.edge_count(),
        "EdgeCount and edge_count",
        out,
    )?;
    that(
        GraphProp::is_directed(map) == map.is_directed(),
        "GraphProp and is_directed",
        out,
    )
}

/// The map made into a Graph of each width has its lists, and the map made back has its nodes and links.
pub fn graph<N: Key, Ty: Kind>(map: &Map<N, Ty>, out: &mut impl Write) -> io::Result<()> {
    if map.edge_count() > SMALL {
        return Ok(());
    }
    graph_of_width::<N, Ty, u32>(map, out)?;
    graph_of_width::<N, Ty, u8>(map, out)
}

fn graph_of_width<N: Key, Ty: Kind, Ix: IndexType>(
    map: &Map<N, Ty>,
    out: &mut impl Write,
) -> io::Result<()> {
    if map.node_count() > SMALL {
        return Ok(());
    }
    let graph: Graph<N, Price, Ty, Ix> = map.clone().into_graph();
    that(
        graph.node_weights().copied().eq(map.nodes()),
        "into_graph and nodes",
        out,
    )?;
    let links = graph.edge_references().map(|link| {
        use petgraph::visit::EdgeRef;
        (graph[link.source()], graph[link.target()], link.weight())
    });
    that(links.eq(map.all_edges()), "into_graph and all_edges", out)?;
    for p in graph.node_indices() {
        for direction in [Outgoing, Incoming] {
            let mut told: Vec<N> = graph
                .neighbors_directed(p, direction)
                .map(|q| graph[q])
                .collect();
            let mut named: Vec<N> = map.neighbors_directed(graph[p], direction).collect();
            told.sort();
            named.sort();
            that(told == named, "the Graph's neighbors and the map's", out)?;
        }
    }
    let back = Map::<N, Ty>::from_graph(graph);
    that(back.nodes().eq(map.nodes()), "from_graph and nodes", out)?;
    that(
        back.all_edges().eq(map.all_edges()),
        "from_graph and all_edges",
        out,
    )
}
