//! Plan files for the tests, and the refusals.
#![allow(dead_code)]

use spwd::{Refusal, Spwd, READ, RECORDS_ROOM};

/// Every refusal, by its number.
pub const REFUSED: [Refusal; 12] = [
    Refusal::NO_PLAN,
    Refusal::UPPER_BITS,
    Refusal::NO_INITIATOR,
    Refusal::UNKNOWN_KIND,
    Refusal::LENGTH_OVER_MOST,
    Refusal::NOT_PERMITTED,
    Refusal::LINE_FULL,
    Refusal::NOTHING_LIVE,
    Refusal::OTHER_TRANSACTION,
    Refusal::SMALL_BUFFER,
    Refusal::SMALL_ROOM,
    Refusal::SLOT_OVER_MOST,
];

pub fn field(tag: u8, content: &[u8]) -> Vec<u8> {
    [&[tag, 0, content.len() as u8], content].concat()
}

/// Plan A of document 01, up to its paths.
fn network() -> Vec<Vec<u8>> {
    let mut fields = Vec::new();
    for (device, kind) in [(1, 0), (2, 0), (3, 0), (4, 0), (10, 1), (11, 1)] {
        fields.push(field(1, &[device, kind]));
    }
    for ends in [[0, 1, 10], [1, 2, 11], [2, 3, 10], [3, 4, 11], [4, 10, 11]] {
        fields.push(field(2, &ends));
    }
    for path in [
        &[1, 3, 0, 2][..],
        &[1, 4, 0, 4, 3],
        &[2, 3, 1, 4, 2],
        &[2, 4, 1, 3],
    ] {
        fields.push(field(3, path));
    }
    fields
}

/// The fields of plan A with these entries: initiator, slot, span, targets.
pub fn fields(entries: &[&[u8]]) -> Vec<Vec<u8>> {
    let mut fields = network();
    fields.extend(entries.iter().map(|entry| field(4, entry)));
    fields.push(INTERVALS.to_vec());
    fields
}

pub fn plan_a(entries: &[&[u8]]) -> Vec<u8> {
    fields(entries).concat()
}

/// The first plan of document 01's samples.
pub fn first() -> Vec<u8> {
    plan_a(&[&[1, 0, 1, 3], &[2, 0, 1, 4]])
}

/// The shortest file that is accepted: one link between nodes 1 and 2, and 1 may start to 2 in slot 0.
pub fn smallest() -> Vec<u8> {
    let given = [
        field(1, &[1, 0]),
        field(1, &[2, 0]),
        field(2, &[0, 1, 2]),
        field(3, &[1, 2, 0]),
        field(4, &[1, 0, 1, 2]),
    ];
    [&given.concat(), &INTERVALS[..]].concat()
}

/// Field 06 of a rate, the latencies a, d, f and g, and a slot length.
pub fn times(rate: u16, numbers: [u32; 5]) -> Vec<u8> {
    let numbers = numbers.map(u32::to_be_bytes);
    field(6, &[&rate.to_be_bytes(), numbers.as_flattened()].concat())
}

/// Intervals 90 and 110, and nothing else: no plan, since it has no entry.
pub const INTERVALS: [u8; 11] = [5, 0, 8, 0, 0, 0, 90, 0, 0, 0, 110];

/// A box under this plan.
pub fn under(file: &[u8]) -> Spwd {
    let mut spwd = Spwd::new();
    spwd.load(file).unwrap();
    spwd
}

/// A box under the first plan, with something in every part of it.
pub fn busy() -> Spwd {
    let mut spwd = under(&first());
    assert_eq!(spwd.request(1, 3, READ, 1), Ok(0));
    assert_eq!(spwd.request(1, 3, READ, 1), Ok(1));
    assert_eq!(spwd.time_code(0, 1_000, &mut [0; RECORDS_ROOM]), Ok(1));
    assert_eq!(spwd.reading(2_000), Ok(true));
    spwd
}
