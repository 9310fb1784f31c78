//! The drawings of a page: nothing overlaps and nothing is cut off, from two devices to sixty-four and to eight initiators with 512 entries.

mod common;

use common::pages::{all_plans, drawn, of_text, source};
use common::xml::Node;
use common::Chance;
use desk::html::svg::width;
use desk::judge::judge;
use desk::source::Source;

/// Left, top, right, bottom.
type Area = [f64; 4];

fn number(node: &Node, name: &str) -> f64 {
    node.get(name).unwrap().parse().unwrap()
}

fn rect(node: &Node) -> Area {
    let [x, y, wide, high] = ["x", "y", "width", "height"].map(|name| number(node, name));
    [x, y, x + wide, y + high]
}

/// Where words stand, in letters of this size.
fn words(node: &Node, size: f64) -> Area {
    let (x, y, wide) = (
        number(node, "x"),
        number(node, "y"),
        width(&node.text(), size),
    );
    let left = match node {
        _ if node.has_class("from") => x,
        _ if node.has_class("to") => x - wide,
        _ => x - wide / 2.0,
    };
    [left, y - size / 2.0, left + wide, y + size / 2.0]
}

fn meet(one: &Area, other: &Area) -> bool {
    let within = |a: f64, b: f64| a + 0.2 < b;
    within(one[0], other[2])
        && within(other[0], one[2])
        && within(one[1], other[3])
        && within(other[1], one[3])
}

#[track_caller]
fn apart(areas: &[(String, Area)], name: &str) {
    for (place, (one, area)) in areas.iter().enumerate() {
        for (other, there) in &areas[place + 1..] {
            assert!(
                !meet(area, there),
                "{name}: {one} and {other}: {area:?} {there:?}"
            );
        }
    }
}

#[track_caller]
fn inside(areas: &[(String, Area)], svg: &Node, name: &str) {
    let size: Vec<f64> = svg
        .get("viewBox")
        .unwrap()
        .split(' ')
        .map(|size| size.parse().unwrap())
        .collect();
    for (one, area) in areas {
        let fits = area[0] >= -0.2
            && area[1] >= -6.2
            && area[2] <= size[2] + 0.2
            && area[3] <= size[3] + 0.2;
        assert!(fits, "{name}: {one} is outside: {area:?} of {size:?}");
    }
}

/// Devices, their names, and the numbers of links stand apart.
#[track_caller]
fn network_is_readable(source: &Source) {
    let page = drawn(source);
    let network = page.id("network").unwrap();
    let mut areas = Vec::new();
    for device in network.with("data-device") {
        let id = device.get("id").unwrap().to_string();
        areas.push((id.clone(), rect(device.named("rect")[0])));
        let names = device.named("text").into_iter().skip(1);
        areas.extend(names.map(|name| (format!("{id}, its name"), words(name, 11.0))));
    }
    for link in network.with("data-link") {
        let numbers = link.named("text");
        assert_eq!(numbers.len(), 1);
        assert_eq!(Some(numbers[0].text().as_str()), link.get("data-link"));
        areas.push((link.get("id").unwrap().to_string(), words(numbers[0], 9.0)));
    }
    apart(&areas, &source.name);
    if let Some(svg) = network.named("svg").first() {
        inside(&areas, svg, &source.name);
    }
}

/// Bars of a block stand apart, and what is written in them has room.
#[track_caller]
fn table_is_readable(source: &Source) {
    let page = drawn(source);
    for block in page.id("table").unwrap().named("svg") {
        let mut areas = Vec::new();
        for bar in block.all().into_iter().filter(|node| node.has_class("bar")) {
            let id = bar.get("data-entry").or(bar.get("data-more")).unwrap();
            let path = bar.named("path")[0].get("d").unwrap();
            let points = path.trim_matches(['M', 'Z']).split('L');
            let points: Vec<[f64; 2]> = points
                .map(|point| {
                    let (x, y) = point.split_once(' ').unwrap();
                    [x.parse().unwrap(), y.parse().unwrap()]
                })
                .collect();
            let (left, right) = (points[0][0], points[2][0]);
            let area = [left, points[0][1], right, points[3][1]];
            let said = words(bar.named("text")[0], 11.0);
            assert!(said[0] >= left && said[2] <= right, "{}: {id}", source.name);
            areas.push((id.to_string(), area));
        }
        apart(&areas, &source.name);
        inside(&areas, block, &source.name);
    }
}

#[test]
fn plans_of_the_project() {
    for name in all_plans() {
        let source = source(&name);
        network_is_readable(&source);
        table_is_readable(&source);
    }
}

/// Long names, at every device.
#[test]
fn names() {
    for name in [
        "plans/guide-reply.plan",
        "plans/eight.plan",
        "plans/astro-h.plan",
        "plans/smallest.plan",
    ] {
        let mut source = source(name);
        for device in 0..64 {
            let name = format!("Wide Magnetometer Module {device} of the mission");
            source.compiled.names.give(device, name);
        }
        network_is_readable(&source);
        table_is_readable(&source);
    }
}

/// Eight initiators and sixteen targets on one router: 128 paths, and an entry of every initiator in every slot, no two to one target.
fn full(targets: usize) -> String {
    let mut text = String::new();
    (0..24).for_each(|node| text += &format!("node {node}\n"));
    text += "router 60\n";
    (0..24).for_each(|link| text += &format!("link {link} {link} 60\n"));
    for initiator in 0..8 {
        (8..24).for_each(|target| {
            text += &format!("path {initiator} {target} {initiator} {target}\n")
        });
    }
    for initiator in 0..8 {
        for slot in 0..64 {
            let first = 8 + (targets * (initiator + slot)) % 16;
            let own: Vec<_> = (first..first + targets)
                .map(|target| target.to_string())
                .collect();
            text += &format!("entry {initiator} {slot} 1 {}\n", own.join(" "));
        }
    }
    text + "intervals 90 110\ntimes 200 5000 5000 5000 5000 36000\n"
}

#[test]
fn eight_initiators_and_512_entries() {
    for targets in [1, 2] {
        let source = of_text(&full(targets));
        assert_eq!(
            judge(source.bytes()).verdict.to_string(),
            "ACCEPTED 25 24 128 512"
        );
        network_is_readable(&source);
        table_is_readable(&source);
        let page = drawn(&source);
        assert_eq!(page.values("data-entry").len(), 512);
        assert_eq!(page.values("data-path").len(), 128);
        assert_eq!(page.values("data-times").len(), 128);
        assert_eq!(page.values("data-turns").len(), 128);
        let rows = page.all().into_iter().filter(|node| node.has_class("row"));
        assert_eq!(rows.count(), 4 * 8);
        let colours = (0..8).map(|place| format!("i{place}"));
        for (initiator, colour) in colours.enumerate() {
            let bar = page.id(&format!("entry-{initiator}-5")).unwrap();
            assert!(bar.named("path")[0].has_class(&colour), "{initiator}");
            let device = page.id(&format!("device-{initiator}")).unwrap();
            assert!(device.named("rect")[0].has_class(&colour), "{initiator}");
        }
    }
}

/// Where there is no room for the targets a letter stands, which is said below once.
#[test]
fn letters() {
    let mut text = String::new();
    (0..18).for_each(|node| text += &format!("node {node}\n"));
    text += "router 60\n";
    (0..18).for_each(|link| text += &format!("link {link} {link} 60\n"));
    (1..18).for_each(|target| text += &format!("path 0 {target} 0 {target}\n"));
    for slot in 0..64 {
        let first = 1 + slot % 2;
        let own: Vec<_> = (first..first + 16)
            .map(|target| target.to_string())
            .collect();
        text += &format!("entry 0 {slot} 1 {}\n", own.join(" "));
    }
    let source = of_text(&(text + "intervals 1 2\n"));
    table_is_readable(&source);
    let page = drawn(&source);
    assert_eq!(page.id("entry-0-4").unwrap().text(), "A");
    assert_eq!(page.id("entry-0-5").unwrap().text(), "B");
    let letters: Vec<_> = page
        .with("data-letter")
        .iter()
        .map(|line| line.text())
        .collect();
    assert_eq!(
        letters,
        [
            "A 1 2 3 4 5 6 7 8 9 10 11 12 13 14 15 16",
            "B 2 3 4 5 6 7 8 9 10 11 12 13 14 15 16 17",
        ]
    );
}

/// A bar over the end of a block, and over 63 to 0, has one part that stands for the entry and others that go on.
#[test]
fn over_63() {
    let text =
        "node 1\nnode 2\nlink 0 1 2\npath 1 2 0\nentry 1 10 16 2\nentry 1 63 2 2\nintervals 1 2\n";
    let page = drawn(&of_text(text));
    assert_eq!(
        page.values("data-entry"),
        ["1-63", "1-10"]
            .map(String::from)
            .iter()
            .rev()
            .cloned()
            .collect::<Vec<_>>()
    );
    assert_eq!(page.values("data-more"), ["1-63", "1-10"]);
    let blocks = page.id("table").unwrap().named("svg");
    let of_block = |block: usize| {
        [
            blocks[block].values("data-entry"),
            blocks[block].values("data-more"),
        ]
        .concat()
    };
    assert_eq!(of_block(0), ["1-10", "1-63"]);
    assert_eq!(of_block(1), ["1-10"]);
    assert_eq!(of_block(2), Vec::<String>::new());
    assert_eq!(of_block(3), ["1-63"]);
}

/// A network of so many routers and nodes, each node on one router, and further links between routers by chance.
fn by_chance(chance: &mut Chance, routers: usize, nodes: usize, links: usize) -> String {
    let mut text = String::new();
    (0..nodes).for_each(|node| text += &format!("node {node}\n"));
    (0..routers).for_each(|router| text += &format!("router {}\n", nodes + router));
    for node in 0..nodes {
        text += &format!("link {node} {node} {}\n", nodes + chance.below(routers));
    }
    for link in nodes..links {
        let one = chance.below(routers);
        let other = (one + 1 + chance.below(routers - 1)) % routers;
        text += &format!("link {link} {} {}\n", nodes + one, nodes + other);
    }
    text
}

/// Some nodes are initiators, of paths that need not lead anywhere to be drawn.
#[test]
fn networks_by_chance() {
    let mut chance = Chance(0x5eed_1900);
    for round in 0..60 {
        let routers = 2 + chance.below(30);
        let nodes = 2 + chance.below(64 - routers - 1);
        let links = nodes + chance.below(65 - nodes);
        let mut text = by_chance(&mut chance, routers, nodes, links);
        for initiator in 0..chance.below(9).min(nodes - 1) {
            text += &format!("path {initiator} {} {initiator}\n", nodes - 1);
        }
        let mut source = of_text(&text);
        source.name = format!("round {round}");
        if round % 2 == 0 {
            (0..64).for_each(|device| {
                source
                    .compiled
                    .names
                    .give(device, format!("Module {device} of the Mission"));
            });
        }
        network_is_readable(&source);
    }
}

/// Stars, a ring, nodes without a router, parallel links, a device by itself.
#[test]
fn networks_of_kinds() {
    let star: String = (0..63).map(|node| format!("node {node}\n")).collect();
    let arms: String = (0..63)
        .map(|link| format!("link {link} {link} 63\n"))
        .collect();
    let ring: String = (0..64).map(|router| format!("router {router}\n")).collect();
    let round: String = (0..64)
        .map(|link| format!("link {link} {link} {}\n", (link + 1) % 64))
        .collect();
    for text in [
        "node 1\nnode 2\nlink 0 1 2\npath 1 2 0\n".to_string(),
        "node 1\n".to_string(),
        "router 1\n".to_string(),
        "node 1\nnode 2\nlink 0 1 2\nlink 1 1 2\nlink 2 2 1\n".to_string(),
        format!("{star}router 63\n{arms}path 0 1 0 1\n"),
        format!("{star}router 63\n{arms}"),
        format!("{ring}{round}"),
        format!(
            "{star}{}",
            (0..62)
                .map(|link| format!("link {link} {link} {}\n", link + 1))
                .collect::<String>()
        ),
    ] {
        network_is_readable(&of_text(&text));
    }
}
