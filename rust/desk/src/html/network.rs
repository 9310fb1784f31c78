//! The network drawn: devices with their numbers and names, links with theirs.

use crate::fields::Link;
use crate::html::document::section;
use crate::html::element::{words, Element};
use crate::html::graph::{Edge, Graph};
use crate::html::marks::Marks;
use crate::html::place::{place, Placed, Spot, HALF, STUB};
use crate::html::style::{colour, initiators};
use crate::html::svg::{drawn, fitted, group, rect, short, svg, text, width, PAPER};
use crate::names::Names;
use crate::plan::Plan;

/// Letters of a name beside a device, and how wide it is at most; below a device, the height of its line too.
const SIZE: f64 = 11.0;
const BESIDE: f64 = 150.0;
const BELOW: f64 = 100.0;
const LINE: f64 = 12.0;
/// Around the drawing.
const MARGIN: f64 = 6.0;
/// How round a router is.
const ROUND: f64 = 12.0;

pub fn network(plan: &Plan, names: &Names, marks: &Marks) -> Element {
    let section = section("network", "Network");
    let graph = Graph::of(plan);
    if graph.vertices.is_empty() {
        return section.add(words("p", "No devices."));
    }
    let last = graph.columns.len() - 1;
    let margins = [margin(&graph, names, 0), margin(&graph, names, last)];
    let margins = if last == 0 {
        [3.0 * STUB, margins[1]]
    } else {
        margins
    };
    let between: Vec<u8> = (1..last)
        .flat_map(|column| devices(&graph, column))
        .collect();
    let below = |device: u8| match names.get(device) {
        Some(_) if between.contains(&device) => LINE,
        _ => 0.0,
    };
    let placed = place(graph, &below, margins, PAPER);
    section
        .add(drawing(plan, names, marks, &placed))
        .add(words("p", LEGEND).class("small"))
        .add_all(all_names(plan, names))
}

const LEGEND: &str = "Square: a node, in colour if it is an initiator. Round: a router. The number on a line is that of the link.";

fn devices(graph: &Graph, column: usize) -> Vec<u8> {
    let vertices = graph.columns[column].iter();
    let devices = vertices.filter_map(|&place| graph.vertices[place].device);
    devices.collect()
}

/// Room for the names beside a column.
fn margin(graph: &Graph, names: &Names, column: usize) -> f64 {
    let devices = devices(graph, column).into_iter();
    let names = devices.filter_map(|device| names.get(device));
    let widths = names.map(|name| width(name, SIZE).min(BESIDE) + 2.0 * MARGIN);
    widths.fold(MARGIN, f64::max)
}

fn drawing(plan: &Plan, names: &Names, marks: &Marks, placed: &Placed) -> Element {
    let (wide, high) = (placed.width, placed.height + 2.0 * MARGIN);
    let down = format!("translate(0 {})", short(MARGIN));
    let mut inside = group("network").with("transform", down);
    for (number, link) in placed.graph.links.iter().enumerate() {
        inside = inside.add(drawn_link(placed, number, link, marks));
    }
    let vertices = placed.graph.vertices.iter().zip(&placed.spots);
    for (vertex, spot) in vertices {
        if let Some(device) = vertex.device {
            let last = placed.graph.columns.len() - 1;
            let beside = Beside::of(vertex.column, last);
            inside = inside.add(drawn_device(plan, names, marks, device, spot, beside));
        }
    }
    svg(wide, high, "the network").add(inside)
}

/// Where the name of a device stands.
#[derive(Clone, Copy, PartialEq, Eq)]
enum Beside {
    Left,
    Right,
    Below,
}

impl Beside {
    fn of(column: usize, last: usize) -> Self {
        match column {
            _ if column == last => Self::Right,
            0 => Self::Left,
            _ => Self::Below,
        }
    }
}

fn drawn_device(
    plan: &Plan,
    names: &Names,
    marks: &Marks,
    device: u8,
    spot: &Spot,
    beside: Beside,
) -> Element {
    let kind = kind(plan, device);
    let id = format!("device-{device}");
    let drawn = group(&format!("device {kind}")).with("id", &id);
    let fault = marks.devices.contains(&device);
    let (drawn, number) = if fault {
        let class = format!("device {kind} fault");
        let marked = drawn.class(class).with("data-fault", id);
        (marked, format!("! {device}"))
    } else {
        (drawn, device.to_string())
    };
    let name = names.get(device);
    drawn
        .with("data-device", device)
        .add(shape(plan, device, kind, spot))
        .add(text(spot.x, spot.y, number).class("strong halo"))
        .add_all(name.map(|name| drawn_name(name, spot, beside)))
}

fn kind(plan: &Plan, device: u8) -> &'static str {
    match plan.device(device).map(|device| device.kind) {
        Some(0) => "node",
        Some(1) => "router",
        Some(_) => "unknown",
        None => "missing",
    }
}

/// Square or round, and in its colour if it is an initiator.
fn shape(plan: &Plan, device: u8, kind: &str, spot: &Spot) -> Element {
    let initiators = initiators(plan);
    let place = initiators.iter().position(|&initiator| initiator == device);
    let top = spot.y - spot.height / 2.0;
    let corner = if kind == "router" { ROUND } else { 0.0 };
    rect(spot.x - HALF, top, 2.0 * HALF, spot.height)
        .with("rx", short(corner.min(spot.height / 2.0)))
        .class(place.map_or("plain".to_string(), colour))
}

fn drawn_name(name: &str, spot: &Spot, beside: Beside) -> Element {
    match beside {
        Beside::Left => {
            text(spot.x - HALF - MARGIN, spot.y, fitted(name, SIZE, BESIDE)).class("to")
        }
        Beside::Right => {
            text(spot.x + HALF + MARGIN, spot.y, fitted(name, SIZE, BESIDE)).class("from")
        }
        Beside::Below => {
            let y = spot.y + (spot.height + LINE) / 2.0;
            text(spot.x, y, fitted(name, SIZE, BELOW)).class("halo")
        }
    }
}

/// A link from its first device to its last, and its number where it leaves one of them.
fn drawn_link(placed: &Placed, number: usize, link: &Link, marks: &Marks) -> Element {
    let edges = placed.graph.edges.iter().enumerate();
    let own: Vec<_> = edges.filter(|(_, edge)| edge.link == number).collect();
    let fault = marks.links.contains(&link.number);
    let class = match (fault, marks.on_way.contains(&link.number)) {
        (true, _) => "link fault",
        (false, true) => "link way",
        (false, false) => "link",
    };
    let mut path = String::new();
    for &(place, edge) in &own {
        path += &route(placed, place, edge);
    }
    let mut drawn_link = group(class)
        .with("id", format!("link-{}", link.number))
        .with("data-link", link.number);
    if fault {
        drawn_link = drawn_link.with("data-fault", format!("link-{}", link.number));
    }
    drawn_link = drawn_link.add(drawn(path));
    match (own.first(), own.last()) {
        (Some(first), Some(last)) => drawn_link.add_all(label(placed, *first, *last, link, fault)),
        _ => drawn_link,
    }
}

/// An edge: level out of one vertex, over, and level into the other; where it crosses a column, on to the other side of that.
fn route(placed: &Placed, place: usize, edge: &Edge) -> String {
    let [from, to] = placed.ends[place];
    let [out, back] = [from, to].map(|end| out_of(placed, edge, end));
    let point = |(x, y): (f64, f64)| format!("{} {}", short(x), short(y));
    let within = from.0 == to.0;
    let bend = if within {
        let turn = if out > from.0 { 1.0 } else { -1.0 };
        let most = placed.gap / 2.0 - STUB;
        let far = turn * (8.0 + (from.1 - to.1).abs() / 8.0).min(most);
        [(out + far, from.1), (back + far, to.1)]
    } else {
        let middle = (out + back) / 2.0;
        [(middle, from.1), (middle, to.1)]
    };
    let crosses = placed.graph.vertices[edge.to].device.is_none();
    let end = if crosses { to.0 + 2.0 * HALF } else { to.0 };
    format!(
        "M{}H{}C{} {} {}H{}",
        point(from),
        short(out),
        point(bend[0]),
        point(bend[1]),
        point((back, to.1)),
        short(end)
    )
}

/// Where the level part of an edge at one of its ends is over.
fn out_of(placed: &Placed, edge: &Edge, end: (f64, f64)) -> f64 {
    let left = [edge.from, edge.to]
        .iter()
        .any(|&place| placed.spots[place].x - HALF == end.0);
    if left {
        end.0 - STUB
    } else {
        end.0 + STUB
    }
}

/// The number of a link, at the end that is no router if there is one.
fn label(
    placed: &Placed,
    first: (usize, &Edge),
    last: (usize, &Edge),
    link: &Link,
    fault: bool,
) -> Vec<Element> {
    let at_end = placed.spots[last.1.to].height < placed.spots[first.1.from].height;
    let (edge, end) = if at_end {
        (last.1, placed.ends[last.0][1])
    } else {
        (first.1, placed.ends[first.0][0])
    };
    let x = (end.0 + out_of(placed, edge, end)) / 2.0;
    let number = text(x, end.1, link.number);
    if !fault {
        return vec![number.class("number halo")];
    }
    let frame = rect(x - 10.0, end.1 - 6.5, 20.0, 13.0).class("frame");
    vec![frame, number.class("number strong")]
}

/// Every name in full, where there are any.
fn all_names(plan: &Plan, names: &Names) -> Option<Element> {
    let mut numbers: Vec<u8> = plan.devices.iter().map(|device| device.number).collect();
    numbers.sort_unstable();
    numbers.dedup();
    let named = numbers.into_iter().filter_map(|number| {
        let name = names.get(number)?;
        Some(format!("{number} {name}"))
    });
    let named: Vec<_> = named.collect();
    (!named.is_empty())
        .then(|| words("p", format!("Devices: {}.", named.join("; "))).class("small"))
}
