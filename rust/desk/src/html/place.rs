//! Where everything of a drawn network stands. A device is as high as its links need: each ends at a place of its own on its side and leaves
//! it level, so that the numbers of links, which stand there, never meet.

use crate::html::graph::{Edge, Graph};
use crate::html::order::{neighbours, order, Neighbours, BEFORE, BEHIND};

/// Half the width of a device.
pub const HALF: f64 = 19.0;
/// How far a link leaves a device level.
pub const STUB: f64 = 22.0;
/// Units between columns, from side to side.
const GAPS: [f64; 2] = [70.0, 290.0];
/// How often devices are drawn towards their neighbours.
const SWEEPS: usize = 8;

/// How high things are: a device at least, what is between two, and between the ends of two links.
#[derive(Clone, Copy)]
struct Heights {
    device: f64,
    between: f64,
    link: f64,
}

const ROOMY: Heights = Heights {
    device: 24.0,
    between: 14.0,
    link: 15.0,
};
const NARROW: Heights = Heights {
    device: 13.0,
    between: 2.5,
    link: 12.0,
};
/// The height that is roomy at most.
const ROOMY_MOST: f64 = 700.0;

/// What a device needs besides: units below it, for its name.
pub type Below<'a> = &'a dyn Fn(u8) -> f64;

/// A vertex: the middle of it, and its height without what is below.
#[derive(Clone, Copy, Debug, Default)]
pub struct Spot {
    pub x: f64,
    pub y: f64,
    pub height: f64,
}

pub struct Placed {
    pub graph: Graph,
    pub spots: Vec<Spot>,
    /// Of each edge, where it begins and ends.
    pub ends: Vec<[(f64, f64); 2]>,
    pub width: f64,
    pub height: f64,
    /// Between columns, from side to side.
    pub gap: f64,
}

/// Places a network between margins; where it is not as wide as the paper, columns stand further apart.
pub fn place(mut graph: Graph, below: Below, margins: [f64; 2], paper: f64) -> Placed {
    let neighbours = neighbours(&graph);
    order(&mut graph, &neighbours);
    let mut heights = ROOMY;
    if high(&graph, &sizes(&graph, heights), below, heights) > ROOMY_MOST {
        heights = NARROW;
    }
    let sizes = sizes(&graph, heights);
    let height = high(&graph, &sizes, below, heights);
    let needs: Vec<_> = (0..sizes.len())
        .map(|place| sizes[place] + under(&graph, below, place))
        .collect();
    let levels = levels(&graph, &neighbours, &needs, heights.between, height);
    let gaps = graph.columns.len().saturating_sub(1) as f64;
    let boxes = 2.0 * HALF * (gaps + 1.0);
    let room = (paper - margins[0] - margins[1] - boxes) / gaps.max(1.0);
    let gap = room.clamp(GAPS[0], GAPS[1]);
    let spots: Vec<_> = (0..sizes.len())
        .map(|place| Spot {
            x: margins[0] + HALF + graph.vertices[place].column as f64 * (2.0 * HALF + gap),
            y: levels[place] - under(&graph, below, place) / 2.0,
            height: sizes[place],
        })
        .collect();
    let ends = ends(&graph, &spots, heights.link);
    Placed {
        graph,
        spots,
        ends,
        width: margins[0] + margins[1] + boxes + gaps * gap,
        height,
        gap,
    }
}

fn under(graph: &Graph, below: Below, place: usize) -> f64 {
    graph.vertices[place].device.map_or(0.0, below)
}

/// The height of every vertex: enough for the links on either side.
fn sizes(graph: &Graph, heights: Heights) -> Vec<f64> {
    let mut counts = vec![[0, 0]; graph.vertices.len()];
    for edge in &graph.edges {
        let [from, to] = sides(graph, edge);
        counts[edge.from][from] += 1;
        counts[edge.to][to] += 1;
    }
    let vertices = graph.vertices.iter().zip(counts);
    vertices
        .map(|(vertex, [left, right])| {
            let links = heights.link * f64::from(left.max(right));
            match vertex.device {
                Some(_) => links.max(heights.device),
                None => heights.link,
            }
        })
        .collect()
}

/// The height of the highest column.
fn high(graph: &Graph, sizes: &[f64], below: Below, heights: Heights) -> f64 {
    let need = |&place: &usize| sizes[place] + under(graph, below, place) + heights.between;
    let column = |column: &Vec<usize>| column.iter().map(need).sum::<f64>();
    graph.columns.iter().map(column).fold(0.0, f64::max)
}

/// The middle of every vertex: near its neighbours, in the order of its column, and apart from those above and below.
fn levels(
    graph: &Graph,
    neighbours: &[Neighbours],
    needs: &[f64],
    between: f64,
    height: f64,
) -> Vec<f64> {
    let mut levels = vec![height / 2.0; needs.len()];
    let mut settle = |column: &[usize], wanted: &dyn Fn(&[f64], usize, usize) -> f64| {
        let places = column.iter().enumerate();
        let wanted: Vec<_> = places
            .map(|(place, &vertex)| wanted(&levels, place, vertex))
            .collect();
        let needs: Vec<_> = column
            .iter()
            .map(|&vertex| needs[vertex] + between)
            .collect();
        for (&vertex, level) in column.iter().zip(apart(&wanted, &needs, height)) {
            levels[vertex] = level;
        }
    };
    for column in &graph.columns {
        let share = height / column.len() as f64;
        settle(column, &|_, place, _| share * (place as f64 + 0.5));
    }
    let there_and_back = graph.columns.iter().chain(graph.columns.iter().rev());
    let sweeps = (0..SWEEPS).flat_map(|_| there_and_back.clone());
    for column in sweeps {
        settle(column, &|levels, _, vertex| {
            mean(levels, &neighbours[vertex], levels[vertex])
        });
    }
    levels
}

/// The mean level of the neighbours in other columns; without any, the own one.
fn mean(levels: &[f64], neighbours: &Neighbours, own: f64) -> f64 {
    let near = || {
        let sides = [BEFORE, BEHIND].map(|side| &neighbours.sides[side]);
        sides.into_iter().flatten()
    };
    let sum: f64 = near().map(|&place| levels[place]).sum();
    match near().count() {
        0 => own,
        count => sum / count as f64,
    }
}

/// Levels as near to the wanted ones as needs allow: half way between moving everything down and moving everything up.
fn apart(wanted: &[f64], needs: &[f64], height: f64) -> Vec<f64> {
    let down = |wanted: &[f64], needs: &[f64]| {
        let mut levels: Vec<f64> = Vec::new();
        let mut free = 0.0;
        for (level, need) in wanted.iter().zip(needs) {
            let level = level.max(free + need / 2.0);
            free = level + need / 2.0;
            levels.push(level);
        }
        levels
    };
    let turned = |levels: &[f64]| -> Vec<f64> {
        let turned = levels.iter().rev().map(|level| height - level);
        turned.collect()
    };
    let needs_turned: Vec<f64> = needs.iter().rev().copied().collect();
    let up = |levels: &[f64]| turned(&down(&turned(levels), &needs_turned));
    // What went beyond an end comes back from there.
    let one = up(&down(wanted, needs));
    let other = down(&up(wanted), needs);
    let both = one.iter().zip(&other);
    both.map(|(one, other)| (one + other) / 2.0).collect()
}

/// The sides of its vertices that an edge ends at: 0 left, 1 right. Within a column both are to the right, in the last one to the left.
fn sides(graph: &Graph, edge: &Edge) -> [usize; 2] {
    let column = |place: usize| graph.vertices[place].column;
    match (column(edge.from), column(edge.to)) {
        (from, to) if from != to => [1, 0],
        (from, _) if from + 1 == graph.columns.len() => [0, 0],
        _ => [1, 1],
    }
}

/// An end of an edge on a side of a vertex, with what it is sorted by from top to bottom.
struct End {
    edge: usize,
    end: usize,
    key: (u8, f64, f64),
}

/// Where each edge begins and ends.
fn ends(graph: &Graph, spots: &[Spot], link: f64) -> Vec<[(f64, f64); 2]> {
    let mut found: Vec<[Vec<End>; 2]> = spots.iter().map(|_| Default::default()).collect();
    for (place, edge) in graph.edges.iter().enumerate() {
        let (own, other) = ([edge.from, edge.to], [edge.to, edge.from]);
        for (end, side) in sides(graph, edge).into_iter().enumerate() {
            let key = key(graph, spots, edge, own[end], other[end]);
            found[own[end]][side].push(End {
                edge: place,
                end,
                key,
            });
        }
    }
    let mut ends = vec![[(0.0, 0.0); 2]; graph.edges.len()];
    for (spot, sides) in spots.iter().zip(&mut found) {
        for (side, here) in sides.iter_mut().enumerate() {
            put(spot, side, here, link, &mut ends);
        }
    }
    ends
}

/// Ends on one side of a vertex, one below the other.
fn put(spot: &Spot, side: usize, here: &mut [End], link: f64, ends: &mut [[(f64, f64); 2]]) {
    let order = |one: &(u8, f64, f64), other: &(u8, f64, f64)| {
        let by_level = one.1.total_cmp(&other.1);
        let by_link = one.2.total_cmp(&other.2);
        one.0.cmp(&other.0).then(by_level).then(by_link)
    };
    here.sort_by(|one, other| order(&one.key, &other.key));
    let first = spot.y - link * (here.len() as f64 - 1.0) / 2.0;
    let x = if side == 0 {
        spot.x - HALF
    } else {
        spot.x + HALF
    };
    for (place, end) in here.iter().enumerate() {
        ends[end.edge][end.end] = (x, first + link * place as f64);
    }
}

/// Links within the column to what is above come first, those to what is below last, and the nearer ones inside of the others.
fn key(graph: &Graph, spots: &[Spot], edge: &Edge, own: usize, other: usize) -> (u8, f64, f64) {
    let link = edge.link as f64;
    let (here, there) = (spots[own].y, spots[other].y);
    if graph.vertices[own].column != graph.vertices[other].column {
        (1, there, link)
    } else if there < here {
        (0, -there, -link)
    } else {
        (2, -there, link)
    }
}
