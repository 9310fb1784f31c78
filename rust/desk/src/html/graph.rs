//! A network in columns: initiators first, then routers by how far they are from these, all other nodes last. A link to a column further on
//! has a point of its own in each column that it crosses, so that it meets no device there.

use crate::fields::Link;
use crate::plan::Plan;
use std::collections::BTreeMap;

/// A device, or a point where a link crosses a column.
#[derive(Clone, Copy, Debug, PartialEq, Eq)]
pub struct Vertex {
    pub device: Option<u8>,
    pub column: usize,
}

/// A link, or a part of it between a column and the next. `from` and `to` are places of vertices, the latter never in a column before.
#[derive(Clone, Copy, Debug, PartialEq, Eq)]
pub struct Edge {
    /// The place of the link among the graph's.
    pub link: usize,
    pub from: usize,
    pub to: usize,
}

/// Every device and every link once, whatever a refused plan says twice.
#[derive(Debug, Default)]
pub struct Graph {
    pub links: Vec<Link>,
    pub vertices: Vec<Vertex>,
    /// By link, each from its first column to its last.
    pub edges: Vec<Edge>,
    /// The vertices of each column, from top to bottom.
    pub columns: Vec<Vec<usize>>,
}

/// Columns of routers at most: as many as a path has routers.
const ROUTER_COLUMNS: usize = 7;

impl Graph {
    pub fn of(plan: &Plan) -> Self {
        let links = links(plan);
        let mut graph = Self::default();
        for (device, column) in columns(plan, &links) {
            let device = Some(device);
            graph.vertices.push(Vertex { device, column });
        }
        for (place, link) in links.iter().enumerate() {
            graph.join(place, link.ends);
        }
        graph.links = links;
        let count = graph.vertices.iter().map(|vertex| vertex.column + 1).max();
        graph.columns = vec![Vec::new(); count.unwrap_or(0)];
        for (place, vertex) in graph.vertices.iter().enumerate() {
            graph.columns[vertex.column].push(place);
        }
        graph
    }

    /// A link as edges, over a new vertex in each column between its ends.
    fn join(&mut self, link: usize, ends: [u8; 2]) {
        let place = |device| {
            let device = Some(device);
            let found = self
                .vertices
                .iter()
                .position(|vertex| vertex.device == device);
            found.unwrap_or(0)
        };
        let [one, other] = ends.map(place);
        let column = |place: usize| self.vertices[place].column;
        let (mut from, to) = if column(one) <= column(other) {
            (one, other)
        } else {
            (other, one)
        };
        for column in column(from) + 1..column(to) {
            let point = self.vertices.len();
            let device = None;
            self.vertices.push(Vertex { device, column });
            self.edges.push(Edge {
                link,
                from,
                to: point,
            });
            from = point;
        }
        self.edges.push(Edge { link, from, to });
    }
}

/// The links, the first of each number.
fn links(plan: &Plan) -> Vec<Link> {
    let mut links: BTreeMap<u8, Link> = BTreeMap::new();
    for link in &plan.links {
        links.entry(link.number).or_insert(*link);
    }
    links.into_values().collect()
}

/// The column of every device that is given or at the end of a link. No column is empty.
fn columns(plan: &Plan, links: &[Link]) -> BTreeMap<u8, usize> {
    let distances = distances(plan, links);
    let far = |device: &u8| match plan.device(*device) {
        _ if distances.get(device) == Some(&0) => 0,
        Some(given) if given.kind == 1 => {
            let distance = distances.get(device).copied();
            distance.unwrap_or(1).min(ROUTER_COLUMNS)
        }
        _ => ROUTER_COLUMNS + 1,
    };
    let given = plan.devices.iter().map(|device| device.number);
    let ends = links.iter().flat_map(|link| link.ends);
    let mut columns: BTreeMap<u8, usize> = given
        .chain(ends)
        .map(|device| (device, far(&device)))
        .collect();
    let mut used: Vec<_> = columns.values().copied().collect();
    used.sort_unstable();
    used.dedup();
    for column in columns.values_mut() {
        *column = used.partition_point(|used| used < column);
    }
    columns
}

/// How many links every device is from the nearest initiator, over routers.
fn distances(plan: &Plan, links: &[Link]) -> BTreeMap<u8, usize> {
    let initiators = plan.initiators().into_iter();
    let mut distances: BTreeMap<u8, usize> = initiators.map(|device| (device, 0)).collect();
    for distance in 1..=links.len() {
        let reached = |device: &u8| {
            let router = plan.device(*device).is_some_and(|device| device.kind == 1);
            distances.get(device) == Some(&(distance - 1)) && (router || distance == 1)
        };
        let next = links.iter().flat_map(|link| {
            let [one, other] = link.ends;
            let on = |from: u8, to: u8| reached(&from).then_some(to);
            [on(one, other), on(other, one)].into_iter().flatten()
        });
        let next: Vec<u8> = next.collect();
        if next.is_empty() {
            break;
        }
        for device in next {
            distances.entry(device).or_insert(distance);
        }
    }
    distances
}
