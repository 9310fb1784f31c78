//! Damaged plan files.

use crate::fields::{field, intervals, put, split};
use crate::permits::permits;
use crate::random::Random;
use crate::replies;
use crate::times::{self, Times};

/// The file with one thing changed.
pub fn damaged(file: &[u8], random: &mut Random) -> Vec<u8> {
    let (fields, rest) = split(file);
    if fields.is_empty() || random.chance(250) {
        return bytes_changed(file, random);
    }
    [fields_changed(fields, random).concat(), rest.to_vec()].concat()
}

/// Bytes that are no plan.
pub fn noise(random: &mut Random) -> Vec<u8> {
    let most = random.pick(&[3, 12, 60, 17_000]);
    let low = random.chance(500);
    (0..random.below(most))
        .map(|_| match low {
            true => random.below(8) as u8,
            false => random.byte(),
        })
        .collect()
}

fn bytes_changed(file: &[u8], random: &mut Random) -> Vec<u8> {
    let mut file = file.to_vec();
    if file.is_empty() {
        return noise(random);
    }
    let at = random.below(file.len());
    match random.below(6) {
        0 => file.truncate(at),
        1 => file[at] = random.byte(),
        2 => file[at] ^= 1 << random.below(8),
        3 => file.insert(at, random.byte()),
        4 => file.extend((0..random.below(5)).map(|_| random.below(8) as u8)),
        _ => lengthened(&mut file, random),
    }
    file
}

/// To about the greatest size of a file, by its own fields again.
fn lengthened(file: &mut Vec<u8>, random: &mut Random) {
    let size = random.between(16_380, 16_389);
    let own = file.clone();
    file.extend(own.iter().cycle().take(size.saturating_sub(own.len())));
}

fn fields_changed(mut fields: Vec<Vec<u8>>, random: &mut Random) -> Vec<Vec<u8>> {
    let at = random.below(fields.len());
    match random.below(21) {
        0 => drop(fields.remove(at)),
        1 => fields.insert(at, fields[at].clone()),
        2 => {
            let other = random.below(fields.len());
            fields.swap(at, other);
        }
        3 => fields[at][0] = random.pick(&[0, 1, 2, 3, 4, 5, 6, 7, 8, 9, 255]),
        4 => fields[at][2] = random.below(24) as u8,
        5 => fields[at] = resized(&fields[at], random),
        6 => timing_changed(&mut fields, random),
        7 => entry_changed(&mut fields, random),
        8..12 => times_changed(&mut fields, random),
        12 => fields.retain(|field| field[0] != 4),
        13..19 => reply_changed(&mut fields, random),
        _ => number_changed(&mut fields, at, random),
    }
    fields
}

/// Content of another length, the header with it.
fn resized(old: &[u8], random: &mut Random) -> Vec<u8> {
    let content = &old[3..];
    let size = random.below(content.len() + 12);
    let mut longer: Vec<u8> = content.iter().copied().cycle().take(size).collect();
    longer.resize(size, 0);
    field(old[0], &longer)
}

/// A number of a field exchanged for another one of the file, or for one at a bound.
fn number_changed(fields: &mut [Vec<u8>], at: usize, random: &mut Random) {
    let other = random.below(fields.len());
    let other = fields[other][3..].to_vec();
    let number = match other.is_empty() || random.chance(300) {
        true => random.pick(&[0, 1, 2, 16, 17, 63, 64, 255]),
        false => random.pick(&other),
    };
    let content = &mut fields[at][3..];
    if !content.is_empty() {
        content[random.below(content.len())] = number;
    }
}

fn timing_changed(fields: &mut Vec<Vec<u8>>, random: &mut Random) {
    const EDGES: [u32; 7] = [0, 1, 90, 110, 0x7fff_ffff, 0x8000_0000, u32::MAX];
    let changed = intervals(random.pick(&EDGES), random.pick(&EDGES));
    match fields.iter_mut().find(|field| field[0] == 5) {
        Some(five) if random.chance(700) => *five = changed,
        _ => fields.push(changed),
    }
}

/// A field 06 with a number at a bound, or of any length, in place of the plan's own; a second one; one too early; one without intervals
/// before it.
fn times_changed(fields: &mut Vec<Vec<u8>>, random: &mut Random) {
    let permits = permits(fields);
    let own = Times::among(fields);
    let own = own.unwrap_or_else(|| Times::random(&permits, random));
    let mut changed = own.at_a_bound(random).field();
    if random.chance(200) {
        let size = random.pick(&[0, 1, 2, 8, 18, 21, 23, 24, 26]);
        changed = field(times::TAG, &vec![random.byte(); size]);
    }
    match random.below(8) {
        0 => put(fields, own.field()),
        1 => fields.insert(random.below(fields.len() + 1), changed.clone()),
        2 => fields.retain(|field| ![5, times::TAG].contains(&field[0])),
        _ => fields.retain(|field| field[0] != times::TAG),
    }
    put(fields, changed);
}

/// A field 07 made of a path: one at fault in place of the pair's own, a second one, or one too early; or any field again at the end.
fn reply_changed(fields: &mut Vec<Vec<u8>>, random: &mut Random) {
    let paths = fields
        .iter()
        .filter(|field| field[0] == 3 && field.len() > 5);
    let paths: Vec<&[u8]> = paths.map(|field| &field[3..]).collect();
    if paths.is_empty() {
        return;
    }
    let path = random.pick(&paths).to_vec();
    let own = |field: &Vec<u8>| field[0] == replies::TAG && field[3..].starts_with(&path[..2]);
    let mut changed = field(replies::TAG, &faulty_reply(&path, random));
    match random.below(10) {
        0 => fields.insert(random.below(fields.len() + 1), changed.clone()),
        1 => changed = fields[random.below(fields.len())].clone(),
        2 => {}
        _ => fields.retain(|field| !own(field)),
    }
    fields.push(changed);
}

/// The content of a reply to this path: over the same links, from the wrong end, or of the pair the other way round, and one thing of it
/// changed.
fn faulty_reply(path: &[u8], random: &mut Random) -> Vec<u8> {
    let mut content = path.to_vec();
    match random.below(4) {
        0 => {}
        1 => content.swap(0, 1),
        _ => content[2..].reverse(),
    }
    let at = random.below(content.len());
    let link = random.between(2, content.len() - 1);
    match random.below(8) {
        0 => content[at] = random.pick(&[64, 127, 128, 255]),
        1 => content[at] = random.below(64) as u8,
        2 => content[1] = content[0],
        3 => drop(content.remove(link)),
        4 => content.insert(link, content[link]),
        5 => content.resize(random.below(14), content[link]),
        _ => {}
    }
    content
}

/// An entry with a longer span or a target of another.
fn entry_changed(fields: &mut [Vec<u8>], random: &mut Random) {
    let entries: Vec<usize> = (0..fields.len())
        .filter(|&place| fields[place][0] == 4 && fields[place].len() > 6)
        .collect();
    if entries.is_empty() {
        return;
    }
    let (at, other) = (random.pick(&entries), random.pick(&entries));
    if random.chance(500) {
        fields[at][5] = random.between(1, 17) as u8;
        return;
    }
    let target = random.pick(&fields[other][6..]);
    let content = [&fields[at][3..], &[target]].concat();
    fields[at] = field(4, &content);
}
