//! The order of the vertices in each column, so that few links cross: by the means of their neighbours, then by exchanging two that stand
//! one above the other as long as that is better.

use crate::html::graph::Graph;

/// How often the columns are gone through, there and back.
const SWEEPS: usize = 6;

/// The neighbours of a vertex in the column before, in its own, and in the one behind.
#[derive(Clone, Debug, Default)]
pub struct Neighbours {
    pub sides: [Vec<usize>; 3],
}

pub const BEFORE: usize = 0;
pub const BESIDE: usize = 1;
pub const BEHIND: usize = 2;

pub fn neighbours(graph: &Graph) -> Vec<Neighbours> {
    let mut neighbours = vec![Neighbours::default(); graph.vertices.len()];
    for edge in &graph.edges {
        let column = |place: usize| graph.vertices[place].column;
        let beside = column(edge.from) == column(edge.to);
        let (behind, before) = if beside {
            (BESIDE, BESIDE)
        } else {
            (BEHIND, BEFORE)
        };
        neighbours[edge.from].sides[behind].push(edge.to);
        neighbours[edge.to].sides[before].push(edge.from);
    }
    neighbours
}

/// Puts the columns of a graph in order.
pub fn order(graph: &mut Graph, neighbours: &[Neighbours]) {
    let count = graph.columns.len();
    let mut places = places(graph);
    for _ in 0..SWEEPS {
        for column in 0..count {
            by_means(&mut graph.columns[column], &mut places, neighbours, BEFORE);
        }
        for column in (0..count).rev() {
            by_means(&mut graph.columns[column], &mut places, neighbours, BEHIND);
        }
    }
    for _ in 0..SWEEPS {
        for column in &mut graph.columns {
            exchanged(column, &mut places, neighbours);
        }
    }
}

/// The place of every vertex in its column.
fn places(graph: &Graph) -> Vec<usize> {
    let mut places = vec![0; graph.vertices.len()];
    for column in &graph.columns {
        number(column, &mut places);
    }
    places
}

fn number(column: &[usize], places: &mut [usize]) {
    for (place, &vertex) in column.iter().enumerate() {
        places[vertex] = place;
    }
}

/// Sorts a column by the means of the neighbours on one side; who has none there goes by its own place.
fn by_means(column: &mut [usize], places: &mut [usize], neighbours: &[Neighbours], side: usize) {
    let mean = |vertex: usize| {
        let near = &neighbours[vertex].sides[side];
        let sum: usize = near.iter().map(|&place| places[place]).sum();
        if near.is_empty() {
            places[vertex] as f64
        } else {
            sum as f64 / near.len() as f64
        }
    };
    let mut means: Vec<_> = column
        .iter()
        .map(|&vertex| (mean(vertex), vertex))
        .collect();
    means.sort_by(|one, other| one.0.total_cmp(&other.0));
    for (place, (_, vertex)) in column.iter_mut().zip(means) {
        *place = vertex;
    }
    number(column, places);
}

/// Exchanges vertices one above the other where that is better.
fn exchanged(column: &mut [usize], places: &mut [usize], neighbours: &[Neighbours]) {
    for upper in 0..column.len().saturating_sub(1) {
        let (one, other) = (column[upper], column[upper + 1]);
        let now = cost(places, neighbours, one, other);
        places.swap(one, other);
        if cost(places, neighbours, other, one) < now {
            column.swap(upper, upper + 1);
        } else {
            places.swap(one, other);
        }
    }
}

/// How many links of the two cross if the first is above the second, and how long their links within the column are.
fn cost(places: &[usize], neighbours: &[Neighbours], upper: usize, lower: usize) -> usize {
    let crossings = |side: usize| {
        let upper = neighbours[upper].sides[side].iter();
        let crossed = upper.map(|&one| {
            let lower = neighbours[lower].sides[side].iter();
            lower.filter(|&&other| places[one] > places[other]).count()
        });
        crossed.sum::<usize>()
    };
    let length = |vertex: usize| {
        let beside = neighbours[vertex].sides[BESIDE].iter();
        let lengths = beside.map(|&other| places[vertex].abs_diff(places[other]));
        lengths.sum::<usize>()
    };
    crossings(BEFORE) + crossings(BEHIND) + length(upper) + length(lower)
}
