//! The entries of one initiator as bars: which slots each takes in each block of the table, and in which lane of the row, since entries of a
//! refused plan may run into each other.

use crate::fields::Entry;
use crate::grid::BLOCK;
use spwd::SLOTS;

/// A part of an entry within a block.
#[derive(Clone, Copy, Debug, PartialEq, Eq)]
pub struct Part {
    pub block: usize,
    /// From the block's first slot on.
    pub first: usize,
    pub count: usize,
    /// Whether the entry begins here, and whether it ends here.
    pub begins: bool,
    pub ends: bool,
}

/// An entry with its lane.
#[derive(Clone, Copy, Debug)]
pub struct Bar<'a> {
    pub entry: Entry<'a>,
    pub lane: usize,
}

/// Whether there is a place for it among sixty-four slots.
pub fn has_place(entry: &Entry) -> bool {
    entry.slot < SLOTS && entry.span > 0
}

/// The parts of an entry that has a place, from its slot on.
pub fn parts(entry: &Entry) -> Vec<Part> {
    let slots = usize::from(SLOTS);
    let mut parts = Vec::new();
    let (mut at, mut left) = (usize::from(entry.slot), usize::from(entry.span).min(slots));
    while left > 0 {
        let count = left.min(BLOCK - at % BLOCK);
        parts.push(Part {
            block: at / BLOCK,
            first: at % BLOCK,
            count,
            begins: parts.is_empty(),
            ends: count == left,
        });
        at = (at + count) % slots;
        left -= count;
    }
    parts
}

/// Every entry in the first lane where it meets no other.
pub fn bars<'a>(entries: impl Iterator<Item = &'a Entry<'a>>) -> Vec<Bar<'a>> {
    let mut entries: Vec<_> = entries.filter(|entry| has_place(entry)).collect();
    entries.sort_by_key(|entry| entry.slot);
    let mut lanes: Vec<u64> = Vec::new();
    let mut bars = Vec::new();
    for entry in entries {
        let covered = entry.covered();
        let free = lanes.iter().position(|lane| lane & covered == 0);
        let lane = free.unwrap_or(lanes.len());
        match lanes.get_mut(lane) {
            Some(taken) => *taken |= covered,
            None => lanes.push(covered),
        }
        bars.push(Bar {
            entry: *entry,
            lane,
        });
    }
    bars
}
