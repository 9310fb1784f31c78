//! Plan files as large as they come.

use crate::fields::{field, intervals, put, split};
use crate::replies;
use crate::times::USUAL;

/// The devices 0 to 63, these of them routers.
fn devices(routers: std::ops::Range<u8>) -> Vec<u8> {
    let kind = |device| u8::from(routers.contains(&device));
    let fields = (0..64).map(|device| field(1, &[device, kind(device)]));
    fields.flatten().collect()
}

/// For each initiator 0 to 7 and each slot an entry of span 1 with its targets.
fn entries(targets: impl Fn(u8) -> Vec<u8>) -> Vec<u8> {
    let mut file = Vec::new();
    for initiator in 0..8 {
        let targets = targets(initiator);
        for slot in 0..64 {
            file.extend(field(4, &[&[initiator, slot, 1], &targets[..]].concat()));
        }
    }
    file
}

/// An accepted plan with 64 devices, 64 links, 8 initiators, 128 paths and 512 entries, in the order of writing out. Each initiator
/// stands at a router of its own with six targets, and the routers in a ring.
pub fn maximal() -> Vec<u8> {
    let mut file = devices(8..16);
    for row in 0..8 {
        file.extend(field(2, &[row, row, 8 + row]));
    }
    for row in 0..8 {
        let next = (row + 1) % 8;
        let (one, other) = (row.min(next), row.max(next));
        file.extend(field(2, &[8 + row, 8 + one, 8 + other]));
    }
    for target in 16..64 {
        file.extend(field(2, &[target, 8 + (target - 16) / 6, target]));
    }
    (0..8).for_each(|row| file.extend(paths_round_the_ring(row)));
    file.extend(entries(|row| {
        (0..6).map(|index| 16 + 6 * row + index).collect()
    }));
    file.extend(intervals(90, 110));
    file
}

/// Sixteen paths: to the six targets at the initiator's own router, and to ten at routers further round.
fn paths_round_the_ring(row: u8) -> Vec<u8> {
    let mut file = Vec::new();
    for target in 16..64 {
        let hops = ((target - 16) / 6 + 8 - row) % 8;
        if hops == 0 || hops == 5 || hops == 6 && target % 6 < 4 {
            let mut content = vec![row, target, row];
            content.extend((0..hops).map(|hop| 8 + (row + hop) % 8));
            content.push(target);
            file.extend(field(3, &content));
        }
    }
    file
}

/// The maximal plan with a reply to each path: over the same links to the targets at the initiator's own router, round the ring the other
/// way to all others.
pub fn replied_round(maximal: &[u8]) -> Vec<u8> {
    with_replies(maximal, |path| {
        let (row, target) = (path[0], path[1]);
        let router = (target - 16) / 6;
        let hops = (row + 8 - router) % 8;
        let mut links = vec![target];
        links.extend((0..hops).map(|hop| 8 + (router + hop) % 8));
        links.push(row);
        links
    })
}

/// The plan with a reply to each path, over the same links.
pub fn replied(file: &[u8]) -> Vec<u8> {
    with_replies(file, |path| path[2..].iter().rev().copied().collect())
}

/// The plan with a reply to each path, given the content of that.
fn with_replies(file: &[u8], back: impl Fn(&[u8]) -> Vec<u8>) -> Vec<u8> {
    let (mut fields, _) = split(file);
    let paths = fields.iter().filter(|field| field[0] == 3);
    let replies = paths.map(|path| {
        let content = &path[3..];
        field(replies::TAG, &[&content[..2], &back(content)].concat())
    });
    let replies: Vec<Vec<u8>> = replies.collect();
    fields.extend(replies);
    fields.concat()
}

/// All that a plan can hold but times and replies: 64 devices, 64 links, 128 paths of 8 links, 512 entries with 16 targets. Eight
/// initiators stand at one end of seven routers in a row and sixteen targets at the other. No such plan is without a clash: with every
/// entry at work, eight initiators with sixteen targets each would need 128 last links of their own.
pub fn full() -> Vec<u8> {
    let mut file = devices(8..15);
    for link in 0..64 {
        let (one, other) = match link {
            0..8 => (link, 8),
            8..14 => (link, link + 1),
            14..30 => (14, link + 1),
            _ => (link - 1, link),
        };
        file.extend(field(2, &[link, one, other]));
    }
    for initiator in 0..8 {
        for target in 15..31 {
            let links = [initiator, 8, 9, 10, 11, 12, 13, target - 1];
            file.extend(field(3, &[&[initiator, target][..], &links].concat()));
        }
    }
    file.extend(entries(|_| (15..31).collect()));
    file.extend(intervals(90, 110));
    file
}

/// The plan with times in which there is room for 256 bytes in one slot over up to four routers each way.
pub fn timed(file: &[u8]) -> Vec<u8> {
    let (mut fields, _) = split(file);
    put(&mut fields, USUAL.field());
    fields.concat()
}

/// The fields that have one of these tags.
pub fn only(tags: &[u8], file: &[u8]) -> Vec<u8> {
    let (mut fields, _) = split(file);
    fields.retain(|field| tags.contains(&field[0]));
    fields.concat()
}

/// The plan with the first of its entries alone.
pub fn one_entry(file: &[u8]) -> Vec<u8> {
    let (mut fields, _) = split(file);
    fields.dedup_by(|field, before| field[0] == 4 && before[0] == 4);
    fields.concat()
}

/// The same plan with the fields of each tag, and the targets of each entry, in falling order.
pub fn falling(file: &[u8]) -> Vec<u8> {
    let (mut fields, _) = split(file);
    fields.reverse();
    fields.sort_by_key(|field| field[0]);
    for field in fields.iter_mut().filter(|field| field[0] == 4) {
        field[6..].reverse();
    }
    fields.concat()
}

/// The maximal plan with its last entry longer by one slot, into the first entry of the same initiator: refused with 13, after all that
/// an accepted load does but the search for a clash.
pub fn overrun(maximal: &[u8]) -> Vec<u8> {
    let mut file = maximal.to_vec();
    let span = file.len() - 18;
    file[span] = 2;
    file
}
