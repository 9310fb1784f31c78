//! What two plans differ in.

use crate::fields::split;
use std::ops::Range;

/// The one thing in which two plans differ.
#[derive(Clone, Copy, Debug, PartialEq, Eq)]
pub enum Part {
    Devices,
    Links,
    Paths,
    Slots,
    Spans,
    Targets,
    Intervals,
    Times,
    Replies,
}

impl Part {
    /// In their order.
    pub const ALL: [(Self, &'static str); 9] = [
        (Self::Devices, "its devices"),
        (Self::Links, "its links"),
        (Self::Paths, "its paths"),
        (Self::Slots, "slots of its entries"),
        (Self::Spans, "spans of its entries"),
        (Self::Targets, "targets of its entries"),
        (Self::Intervals, "its intervals"),
        (Self::Times, "its times"),
        (Self::Replies, "its replies"),
    ];

    /// Of two plans that are written out like this, if they differ in one thing alone.
    pub fn between(one: &[u8], other: &[u8]) -> Option<Self> {
        let (one, other) = (split(one).0, split(other).0);
        let differ = |tag: &u8| of_tag(&one, *tag) != of_tag(&other, *tag);
        let tags: Vec<u8> = (1..=7).filter(differ).collect();
        match tags[..] {
            [1] => Some(Self::Devices),
            [2] => Some(Self::Links),
            [3] => Some(Self::Paths),
            [4] => Self::of_entries(&of_tag(&one, 4), &of_tag(&other, 4)),
            [5] => Some(Self::Intervals),
            [6] => Some(Self::Times),
            [7] => Some(Self::Replies),
            _ => None,
        }
    }

    fn of_entries(one: &[&[u8]], other: &[&[u8]]) -> Option<Self> {
        let parts = [
            (Self::Slots, 4..5),
            (Self::Spans, 5..6),
            (Self::Targets, 6..usize::MAX),
        ];
        let same_beside = |left: &Range<usize>| beside(one, left) == beside(other, left);
        let mut parts = parts.iter().filter(|(_, left)| same_beside(left));
        parts.next().map(|&(part, _)| part)
    }
}

/// The fields with this tag.
fn of_tag(fields: &[Vec<u8>], tag: u8) -> Vec<&[u8]> {
    let fields = fields.iter().filter(|field| field[0] == tag);
    fields.map(|field| &field[..]).collect()
}

/// Of each entry what stands beside these places, without its head, in order.
fn beside(entries: &[&[u8]], left: &Range<usize>) -> Vec<Vec<u8>> {
    let rest = |entry: &&[u8]| {
        let places = (3..entry.len()).filter(|place| !left.contains(place));
        places.map(|place| entry[place]).collect()
    };
    let mut all: Vec<Vec<u8>> = entries.iter().map(rest).collect();
    all.sort();
    all
}
