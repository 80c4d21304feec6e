//! A GraphMap of petgraph with the capacities of the port, and the answers to the commands.

use std::io::{self, Write};

use petgraph::graphmap::GraphMap;
use petgraph::visit::{EdgeIndexable, NodeIndexable};
use petgraph::{Direction, EdgeType, Incoming, Outgoing};

use crate::checks;
use crate::commands::Command;
use crate::keys::{Key, Price};

pub type Map<N, Ty> = GraphMap<N, Price, Ty>;

/// Directed or Undirected.
pub trait Kind: EdgeType + Clone {}
impl<Ty: EdgeType + Clone> Kind for Ty {}

/// The largest capacity.
const MOST: u32 = 65_535;

pub struct Room<N: Key, Ty: Kind> {
    map: Map<N, Ty>,
    nodes: usize,
    links: usize,
}

/// The place of a link that is there. petgraph's `to_index` takes the stored key only.
pub fn place<N: Key, Ty: Kind>(map: &Map<N, Ty>, a: N, b: N) -> usize {
    EdgeIndexable::to_index(map, Map::<N, Ty>::edge_key(a, b))
}

fn kind(directed: bool) -> &'static str {
    if directed {
        "directed"
    } else {
        "undirected"
    }
}

impl<N: Key, Ty: Kind> Room<N, Ty> {
    pub fn new(room: Option<(u32, u32)>) -> Self {
        let (nodes, links) = room.unwrap_or((MOST, MOST));
        Room {
            map: Map::new(),
            nodes: nodes.min(MOST) as usize,
            links: links.min(MOST) as usize,
        }
    }

    pub fn announce(&self, out: &mut impl Write) -> io::Result<()> {
        let kind = kind(self.map.is_directed());
        writeln!(
            out,
            "new {kind} map, room for {} nodes and {} links",
            self.nodes, self.links
        )
    }

    /// The number of the refusal that a link from a to b meets. This rule is the port's own.
    fn refusal(&self, map: &Map<N, Ty>, a: N, b: N) -> Option<u32> {
        if map.contains_edge(a, b) {
            return None;
        }
        if map.edge_count() >= self.links {
            return Some(1);
        }
        let mut absent = usize::from(!map.contains_node(a));
        if a != b {
            absent += usize::from(!map.contains_node(b));
        }
        (map.node_count() + absent > self.nodes).then_some(2)
    }

    pub fn carry_out(&mut self, command: Command<N>, out: &mut impl Write) -> io::Result<()> {
        match command {
            Command::NewMap { .. } => Ok(()),
            Command::Node(k) => self.node(k, out),
            Command::Add(a, b, price) => self.add(a, b, price, out),
            Command::Extend(items) => self.extend(items, out),
            Command::Set(a, b, price) => self.set(a, b, price, out),
            Command::Remove(a, b) => self.remove(a, b, out),
            Command::Drop(k) => self.drop_node(k, out),
            Command::Clear => self.clear(out),
            Command::List => self.list(out),
            Command::Nodes => self.list_nodes(out),
            Command::Row(k) => self.row(k, out),
            Command::Neighbors(k, direction) => self.neighbors(k, direction, out),
            Command::Edges(k, direction) => self.edges(k, direction, out),
            Command::PriceOf(a, b) => self.price(a, b, out),
            Command::Degree(k) => self.degree(k, out),
            Command::Counts => self.counts(out),
        }
    }

    fn node(&mut self, k: N, out: &mut impl Write) -> io::Result<()> {
        let there = self.map.contains_node(k);
        if !there && self.map.node_count() >= self.nodes {
            return writeln!(out, "refused 2");
        }
        let answer = self.map.add_node(k);
        checks::that(answer == k, "add_node answers its argument", out)?;
        let place = NodeIndexable::to_index(&self.map, k);
        match there {
            true => writeln!(out, "node there at place {place}"),
            false => writeln!(out, "new node at place {place}"),
        }
    }

    fn add(&mut self, a: N, b: N, price: Price, out: &mut impl Write) -> io::Result<()> {
        if let Some(number) = self.refusal(&self.map, a, b) {
            return writeln!(out, "refused {number}");
        }
        let before = self.map.edge_weight(a, b).copied();
        let old = self.map.add_edge(a, b, price);
        checks::that(old == before, "add_edge answers the old weight", out)?;
        let place = place(&self.map, a, b);
        match old {
            Some(old) => writeln!(out, "replaced {old} at place {place}"),
            None => writeln!(out, "new at place {place}"),
        }
    }

    /// The items before the first refused one go in by petgraph's `extend`, all at once.
    /// A copy takes them one by one, which tells how many they are.
    fn extend(&mut self, items: Vec<(N, N, Price)>, out: &mut impl Write) -> io::Result<()> {
        let mut copy = self.map.clone();
        let mut stop = None;
        let mut taken = 0;
        for &(a, b, price) in &items {
            stop = self.refusal(&copy, a, b);
            if stop.is_some() {
                break;
            }
            copy.add_edge(a, b, price);
            taken += 1;
        }
        let rest = items.len() - taken;
        self.map.extend(items[..taken].iter().copied());
        checks::same("extend and add_edge", &self.map, &copy, out)?;
        checks::from_edges::<N, Ty>(&items[..taken], out)?;
        match stop {
            Some(number) => writeln!(out, "taken {taken}, refused {number}, rest {rest}"),
            None => writeln!(out, "taken {taken}"),
        }
    }

    fn set(&mut self, a: N, b: N, price: Price, out: &mut impl Write) -> io::Result<()> {
        let Some(weight) = self.map.edge_weight_mut(a, b) else {
            return writeln!(out, "nothing there");
        };
        let old = std::mem::replace(weight, price);
        writeln!(out, "set at place {}, was {old}", place(&self.map, a, b))
    }

    fn remove(&mut self, a: N, b: N, out: &mut impl Write) -> io::Result<()> {
        if !self.map.contains_edge(a, b) {
            let answer = self.map.remove_edge(a, b);
            checks::that(
                answer.is_none(),
                "remove_edge of an absent link answers None",
                out,
            )?;
            return writeln!(out, "nothing there");
        }
        let gap = place(&self.map, a, b);
        let last = self.map.edge_bound() - 1;
        let last_key = EdgeIndexable::from_index(&self.map, last);
        let Some(price) = self.map.remove_edge(a, b) else {
            return checks::that(
                false,
                "remove_edge of a link that is there answers Some",
                out,
            );
        };
        if gap == last {
            return writeln!(out, "removed {price}, no gap");
        }
        let moved = EdgeIndexable::to_index(&self.map, last_key);
        writeln!(out, "removed {price}, place {last} moved to place {moved}")
    }

    fn drop_node(&mut self, k: N, out: &mut impl Write) -> io::Result<()> {
        let place = self
            .map
            .contains_node(k)
            .then(|| NodeIndexable::to_index(&self.map, k));
        let answer = self.map.remove_node(k);
        checks::that(
            answer == place.is_some(),
            "remove_node tells whether the node was there",
            out,
        )?;
        let Some(place) = place else {
            return writeln!(out, "nothing there");
        };
        let (nodes, links) = (self.map.node_count(), self.map.edge_count());
        writeln!(
            out,
            "dropped from place {place}, nodes: {nodes}, links: {links}"
        )
    }

    fn clear(&mut self, out: &mut impl Write) -> io::Result<()> {
        let (nodes, links) = (self.map.node_count(), self.map.edge_count());
        self.map.clear();
        writeln!(out, "cleared {nodes} nodes and {links} links")
    }

    fn list(&self, out: &mut impl Write) -> io::Result<()> {
        for (index, (a, b, price)) in self.map.all_edges().enumerate() {
            checks::link_at(&self.map, index, a, b, out)?;
            writeln!(out, "place {index}: {a} {b} {price}")?;
        }
        checks::links(&self.map, out)?;
        writeln!(out, "links: {}", self.map.edge_count())
    }

    fn list_nodes(&self, out: &mut impl Write) -> io::Result<()> {
        for (index, k) in self.map.nodes().enumerate() {
            checks::node_at(&self.map, index, k, out)?;
            writeln!(out, "place {index}: {k}")?;
        }
        checks::nodes(&self.map, out)?;
        writeln!(out, "nodes: {}", self.map.node_count())
    }

    fn row(&self, k: N, out: &mut impl Write) -> io::Result<()> {
        let Some(row) = self.map.nodes.get(&k) else {
            return writeln!(out, "nothing there");
        };
        for (index, &(m, direction)) in row.iter().enumerate() {
            let word = match Direction::from(direction) {
                Outgoing => "out",
                Incoming => "in",
            };
            writeln!(out, "entry {index}: {m} {word}")?;
        }
        writeln!(out, "entries: {}", row.len())
    }

    fn neighbors(
        &self,
        k: N,
        direction: Option<Direction>,
        out: &mut impl Write,
    ) -> io::Result<()> {
        let found: Vec<N> = match direction {
            None => self.map.neighbors(k).collect(),
            Some(direction) => self.map.neighbors_directed(k, direction).collect(),
        };
        checks::neighbors(&self.map, k, direction, &found, out)?;
        for (index, m) in found.iter().enumerate() {
            writeln!(out, "neighbor {index}: {m}")?;
        }
        writeln!(out, "neighbors: {}", found.len())
    }

    fn edges(&self, k: N, direction: Option<Direction>, out: &mut impl Write) -> io::Result<()> {
        let found: Vec<(N, N, &Price)> = match direction {
            None => self.map.edges(k).collect(),
            Some(direction) => self.map.edges_directed(k, direction).collect(),
        };
        checks::edges(&self.map, k, direction, &found, out)?;
        for (index, &(a, b, price)) in found.iter().enumerate() {
            let place = place(&self.map, a, b);
            writeln!(out, "edge {index}: {a} {b} {price} at place {place}")?;
        }
        writeln!(out, "edges: {}", found.len())
    }

    fn price(&self, a: N, b: N, out: &mut impl Write) -> io::Result<()> {
        checks::price(&self.map, a, b, out)?;
        match self.map.edge_weight(a, b) {
            Some(price) => writeln!(out, "{price} at place {}", place(&self.map, a, b)),
            None => writeln!(out, "nothing there"),
        }
    }

    /// petgraph's GraphMap has no degree: it is the number of entries of the row.
    fn degree(&self, k: N, out: &mut impl Write) -> io::Result<()> {
        let Some(row) = self.map.nodes.get(&k) else {
            return writeln!(out, "nothing there");
        };
        let place = NodeIndexable::to_index(&self.map, k);
        writeln!(out, "degree {} at place {place}", row.len())
    }

    fn counts(&self, out: &mut impl Write) -> io::Result<()> {
        checks::counts(&self.map, out)?;
        checks::graph(&self.map, out)?;
        let (nodes, links) = (self.map.node_count(), self.map.edge_count());
        let kind = kind(self.map.is_directed());
        writeln!(
            out,
            "nodes {nodes} of {}, links {links} of {}, {kind}",
            self.nodes, self.links
        )
    }
}
