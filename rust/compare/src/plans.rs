//! Plan files at random.

use crate::fields::{field, intervals, put, split};
use crate::large;
use crate::network::{Network, Walk};
use crate::permits::permits;
use crate::random::Random;
use crate::replies::{self, as_bits};
use crate::table::Table;
use crate::times::Times;

/// A plan file, most often one that is accepted.
pub fn plan(random: &mut Random) -> Vec<u8> {
    let file = match random.below(100) {
        0 => maximal(random),
        1 => large::falling(&maximal(random)),
        2 => some_replied(large::full(), random),
        3..10 => some_replied(crowded(random), random),
        10..13 => without_entries(random),
        13..18 => crossing(random),
        _ => usual(random),
    };
    with_times(file, random)
}

/// A plan that is accepted.
pub fn accepted(random: &mut Random) -> Vec<u8> {
    let file = match random.below(40) {
        0 => maximal(random),
        1 => each_slot(random),
        _ => with_entries(random, Care::Both),
    };
    with_times(file, random)
}

/// The maximal plan, every other one with a reply to each path.
fn maximal(random: &mut Random) -> Vec<u8> {
    let file = large::maximal();
    match random.chance(500) {
        true => large::replied_round(&file),
        false => file,
    }
}

/// Every other plan gets a reply to each path, over the same links.
fn some_replied(file: Vec<u8>, random: &mut Random) -> Vec<u8> {
    match random.chance(500) {
        true => large::replied(&file),
        false => file,
    }
}

/// Every other plan gets times.
fn with_times(file: Vec<u8>, random: &mut Random) -> Vec<u8> {
    if random.chance(500) {
        return file;
    }
    let (mut fields, _) = split(&file);
    let times = Times::random(&permits(&fields), random);
    put(&mut fields, times.field());
    fields.concat()
}

/// One initiator that may start in each slot.
pub fn each_slot(random: &mut Random) -> Vec<u8> {
    let mut fields = vec![field(1, &[7, 0]), field(1, &[9, 0])];
    fields.push(field(2, &[3, 7, 9]));
    fields.push(field(3, &[7, 9, 3]));
    fields.extend((0..64).map(|slot| field(4, &[7, slot, 1, 9])));
    fields.push(intervals(90, 110));
    in_order_of_tags(fields, random)
}

/// The same plan with its fields, the devices of its links and the targets of its entries in another order.
pub fn reordered(file: &[u8], random: &mut Random) -> Vec<u8> {
    let (mut fields, rest) = split(file);
    for field in &mut fields {
        match (field[0], field.len()) {
            (2, 6) => random.shuffle(&mut field[4..]),
            (4, 7..) => random.shuffle(&mut field[6..]),
            _ => {}
        }
    }
    [in_order_of_tags(fields, random), rest.to_vec()].concat()
}

fn in_order_of_tags(mut fields: Vec<Vec<u8>>, random: &mut Random) -> Vec<u8> {
    random.shuffle(&mut fields);
    fields.sort_by_key(|field| field[0]);
    fields.concat()
}

fn usual(random: &mut Random) -> Vec<u8> {
    let care = match random.below(10) {
        0 => Care::None,
        1 => Care::Commands,
        2 => Care::Replies,
        _ => Care::Both,
    };
    with_entries(random, care)
}

/// A plan up to its devices, links or paths, or not even these, with intervals, and with replies or without where it has paths.
fn without_entries(random: &mut Random) -> Vec<u8> {
    let kept = random.pick(&[
        &[5][..],
        &[1, 5],
        &[1, 2, 5],
        &[1, 2, 3, 5],
        &[1, 2, 3, 5, replies::TAG],
    ]);
    large::only(kept, &usual(random))
}

fn intervals_field(random: &mut Random) -> Vec<u8> {
    const TOP: u32 = 0x7fff_ffff;
    match random.below(8) {
        0..5 => intervals(90, 110),
        5 => intervals(0, random.pick(&[1, 2, TOP - 1, TOP])),
        6 => {
            let only = random.pick(&[1, 2, TOP - 1, TOP]);
            intervals(only, only)
        }
        _ => {
            let greatest = (random.word() & TOP).max(1);
            intervals(random.below(greatest as usize + 1) as u32, greatest)
        }
    }
}

/// The device and link fields of a network.
fn network_fields(network: &Network) -> Vec<Vec<u8>> {
    let nodes = network.nodes.iter().map(|&node| field(1, &[node, 0]));
    let routers = network.routers.iter().map(|&router| field(1, &[router, 1]));
    let links = network.links.iter();
    let links = links.map(|&(number, one, other)| field(2, &[number, one, other]));
    nodes.chain(routers).chain(links).collect()
}

/// Now and then devices that no link joins to another.
fn alone(network: &Network, random: &mut Random) -> Vec<Vec<u8>> {
    let has = |number: &u8| network.nodes.contains(number) || network.routers.contains(number);
    let mut free: Vec<u8> = (0..64).filter(|number| !has(number)).collect();
    random.shuffle(&mut free);
    free.truncate(random.pick(&[0, 0, 1, 3]));
    let device = |&number: &u8| field(1, &[number, number % 2]);
    free.iter().map(device).collect()
}

struct Path {
    initiator: u8,
    target: u8,
    links: Walk,
    /// The links of the reply, if it has a way of its own.
    back: Option<Walk>,
}

impl Path {
    fn fields(&self) -> Vec<Vec<u8>> {
        let pair = &[self.initiator, self.target][..];
        let path = field(3, &[pair, &self.links].concat());
        let back = self.back.iter();
        let back = back.map(|back| field(replies::TAG, &[pair, back].concat()));
        [path].into_iter().chain(back).collect()
    }

    /// The links, as bits, that entries take care of.
    fn cared_for(&self, care: Care) -> u64 {
        let commands = as_bits(&self.links);
        let replies = self.back.as_ref().map_or(commands, |back| as_bits(back));
        match care {
            Care::Commands => commands,
            Care::Replies => replies,
            Care::None | Care::Both => commands | replies,
        }
    }
}

/// What the entries of a plan do not clash with: nothing is looked at, not even an overrun; the ways of commands; those of replies; all.
#[derive(Clone, Copy, PartialEq, Eq)]
enum Care {
    None,
    Commands,
    Replies,
    Both,
}

/// A plan over a random network, with an entry or more.
fn with_entries(random: &mut Random, care: Care) -> Vec<u8> {
    let (network, paths) = network_and_paths(random);
    let mut fields = network_fields(&network);
    fields.extend(alone(&network, random));
    fields.extend(paths.iter().flat_map(Path::fields));
    fields.extend(entries(&paths, care, random));
    fields.push(intervals_field(random));
    in_order_of_tags(fields, random)
}

/// A network in which a path was found.
fn network_and_paths(random: &mut Random) -> (Network, Vec<Path>) {
    loop {
        let network = match random.chance(300) {
            true => Network::with_many_ways(random),
            false => Network::random(random),
        };
        let paths = paths(&network, random);
        if !paths.is_empty() {
            return (network, paths);
        }
    }
}

fn paths(network: &Network, random: &mut Random) -> Vec<Path> {
    let count = random.between(1, network.nodes.len().min(8));
    let initiators = &network.nodes[..count];
    let most = random.pick(&[4, 16, 128]);
    let mut pairs = Vec::new();
    for &initiator in initiators {
        let targets = network.nodes.iter().filter(|&&node| node != initiator);
        pairs.extend(targets.map(|&target| (initiator, target)));
    }
    random.shuffle(&mut pairs);
    let replied = random.pick(&[0, 0, 500, 1000]);
    let found = pairs
        .into_iter()
        .filter_map(|(initiator, target)| path(network, initiator, target, replied, random));
    found.take(most).collect()
}

/// A path, if one is found soon, with a way of its own for the reply in so many of a thousand cases.
fn path(
    network: &Network,
    initiator: u8,
    target: u8,
    replied: usize,
    random: &mut Random,
) -> Option<Path> {
    let links = network.walk(initiator, target, random)?;
    let back = match random.chance(replied) {
        true => network.walk(target, initiator, random),
        false => None,
    };
    Some(Path {
        initiator,
        target,
        links,
        back,
    })
}

/// One at least: the first finds room in any case.
fn entries(paths: &[Path], care: Care, random: &mut Random) -> Vec<Vec<u8>> {
    let mut initiators: Vec<u8> = paths.iter().map(|path| path.initiator).collect();
    initiators.sort();
    initiators.dedup();
    let mut table = Table::new(initiators.len());
    let mut entries = Vec::new();
    let attempts = random.pick(&[1, 4, 16, 64, 200]);
    for _ in 0..random.between(1, attempts) {
        let row = random.below(initiators.len());
        let own: Vec<&Path> = paths
            .iter()
            .filter(|path| path.initiator == initiators[row])
            .collect();
        let (targets, links) = aims(&own, care, random);
        let slot = match random.below(3) {
            0 => random.pick(&[60, 61, 62, 63, 0, 1]),
            _ => random.below(64),
        };
        let span = match random.below(4) {
            0 => random.between(1, 16),
            _ => random.between(1, 3),
        };
        let wanted = match care {
            Care::None => !table.stands(row, slot),
            _ => table.has_room(row, slot, span, links),
        };
        if wanted {
            table.add(row, slot, span, links);
            let head = [initiators[row], slot as u8, span as u8];
            entries.push(field(4, &[&head[..], &targets].concat()));
        }
    }
    entries
}

/// Some of the targets of these paths, and all links to take care of as bits.
fn aims(paths: &[&Path], care: Care, random: &mut Random) -> (Vec<u8>, u64) {
    let mut chosen = paths.to_vec();
    random.shuffle(&mut chosen);
    let most = random.pick(&[1, 2, 16]);
    chosen.truncate(random.between(1, most));
    let targets = chosen.iter().map(|path| path.target).collect();
    let links = chosen.iter().map(|path| path.cared_for(care));
    (targets, links.fold(0, |all, links| all | links))
}

/// Pairs with many ways, each with an entry in the same slot: they meet on the ways of their commands, on those of their replies, or not
/// at all. Some ways lead through nodes.
fn crossing(random: &mut Random) -> Vec<u8> {
    let network = Network::with_many_ways(random);
    let mut fields = network_fields(&network);
    let slot = random.below(64) as u8;
    for pair in network.nodes.chunks(2) {
        let (initiator, target) = (pair[0], pair[1]);
        let Some(mut path) = path(&network, initiator, target, 800, random) else {
            continue;
        };
        let other = network.of_routers().walk(target, initiator, random);
        match (random.below(20), other) {
            (0, Some(walk)) => path.links = walk.into_iter().rev().collect(),
            (1, walk) => path.back = walk,
            _ => {}
        }
        fields.extend(path.fields());
        let span = random.between(1, 2) as u8;
        fields.push(field(4, &[initiator, slot, span, target]));
    }
    fields.push(intervals_field(random));
    in_order_of_tags(fields, random)
}

/// Seven to ten initiators around one router with up to 131 paths: at or over the bounds on both. Most have an entry.
fn crowded(random: &mut Random) -> Vec<u8> {
    let mut nodes: Vec<u8> = (0..63).collect();
    random.shuffle(&mut nodes);
    nodes.truncate(30);
    let mut fields: Vec<Vec<u8>> = nodes.iter().map(|&node| field(1, &[node, 0])).collect();
    fields.push(field(1, &[63, 1]));
    fields.extend(nodes.iter().map(|&node| field(2, &[node, node, 63])));
    let initiators = &nodes[..random.between(7, 10)];
    let mut pairs = Vec::new();
    for &initiator in initiators {
        pairs.extend(nodes[10..].iter().map(|&target| (initiator, target)));
    }
    random.shuffle(&mut pairs);
    pairs.truncate(random.between(126, 131));
    let paths = pairs.iter();
    fields.extend(paths.map(|&(one, other)| field(3, &[one, other, one, other])));
    if random.chance(900) {
        let (initiator, target) = random.pick(&pairs);
        let (slot, span) = (random.below(64) as u8, random.between(1, 16) as u8);
        fields.push(field(4, &[initiator, slot, span, target]));
    }
    fields.push(intervals_field(random));
    in_order_of_tags(fields, random)
}
