//! A plan file as fields, and a field as the item that it gives. Nothing is judged here.

use crate::sets::set;
use spwd::Latencies;
use std::fmt::{self, Display, Formatter};

/// A row of document 01's table of tags, and of those that change requests add.
#[derive(Debug)]
pub struct Tag {
    pub tag: u8,
    pub name: &'static str,
    pub least: usize,
    pub most: usize,
}

pub const TAGS: [Tag; 7] = [
    tag(1, "device", 2, 2),
    tag(2, "link", 3, 3),
    tag(3, "path", 3, 10),
    tag(4, "entry", 4, 19),
    tag(5, "timing", 8, 8),
    tag(6, "slot times", 22, 22),
    tag(7, "reply", 3, 10),
];

const fn tag(tag: u8, name: &'static str, least: usize, most: usize) -> Tag {
    Tag {
        tag,
        name,
        least,
        most,
    }
}

/// Tag and length.
const HEAD: usize = 3;

/// A field, or what a file that ends too soon has of one; it is never empty.
#[derive(Clone, Copy, Debug)]
pub struct Field<'a> {
    pub offset: usize,
    pub bytes: &'a [u8],
}

/// The fields of a file, front to back: every byte is in one of them.
pub fn fields(file: &[u8]) -> Vec<Field<'_>> {
    let mut fields = Vec::new();
    let mut offset = 0;
    while offset < file.len() {
        let rest = &file[offset..];
        let size = rest
            .get(1..HEAD)
            .map_or(rest.len(), |length| HEAD + sixteen(length));
        let bytes = &rest[..size.min(rest.len())];
        fields.push(Field { offset, bytes });
        offset += bytes.len();
    }
    fields
}

/// The bytes of a field: tag, length and content, which has at most 65,535 bytes.
pub fn field(tag: u8, content: &[u8]) -> Vec<u8> {
    let length = (content.len() as u16).to_be_bytes();
    [&[tag], &length[..], content].concat()
}

fn sixteen(bytes: &[u8]) -> usize {
    bytes.iter().fold(0, |n, &byte| 256 * n + usize::from(byte))
}

fn thirty_two(bytes: &[u8]) -> u32 {
    bytes.iter().fold(0, |n, &byte| n << 8 | u32::from(byte))
}

impl<'a> Field<'a> {
    pub fn tag(&self) -> u8 {
        self.bytes.first().copied().unwrap_or(0)
    }

    /// The length that the field states.
    pub fn length(&self) -> Option<usize> {
        self.bytes.get(1..HEAD).map(sixteen)
    }

    pub fn content(&self) -> &'a [u8] {
        self.bytes.get(HEAD..).unwrap_or(&[])
    }

    pub fn is_whole(&self) -> bool {
        self.length() == Some(self.content().len()) && self.bytes.len() >= HEAD
    }

    /// The row of its tag, if there is one.
    pub fn row(&self) -> Option<&'static Tag> {
        TAGS.iter().find(|row| row.tag == self.tag())
    }

    /// None if it is cut off, its tag unknown or its length not one of the tag's.
    pub fn item(&self) -> Option<Item<'a>> {
        let row = self.row()?;
        let content = self.content();
        if !self.is_whole() || !(row.least..=row.most).contains(&content.len()) {
            return None;
        }
        item(self.offset, row.tag, content)
    }
}

fn item(offset: usize, tag: u8, content: &[u8]) -> Option<Item<'_>> {
    Some(match (tag, content) {
        (1, &[number, kind]) => Item::Device(Device {
            offset,
            number,
            kind,
        }),
        (2, &[number, one, other]) => Item::Link(Link {
            offset,
            number,
            ends: [one, other],
        }),
        (3, &[initiator, target, ref links @ ..]) => Item::Path(Path {
            offset,
            initiator,
            target,
            links,
        }),
        (4, &[initiator, slot, span, ref targets @ ..]) => Item::Entry(Entry {
            offset,
            initiator,
            slot,
            span,
            targets,
        }),
        (5, &[ref least @ .., _, _, _, _]) => Item::Timing(Timing {
            offset,
            least: thirty_two(least),
            greatest: thirty_two(&content[least.len()..]),
        }),
        (6, &[high, low, ref numbers @ ..]) => Item::Times(times(offset, [high, low], numbers)?),
        (7, &[initiator, target, ref links @ ..]) => Item::Reply(Reply {
            offset,
            initiator,
            target,
            links,
        }),
        _ => return None,
    })
}

/// The rate, and behind it five numbers of four bytes.
fn times(offset: usize, rate: [u8; 2], numbers: &[u8]) -> Option<Times> {
    let numbers: Vec<_> = numbers.chunks(4).map(thirty_two).collect();
    let &[a, d, f, g, slot_length] = &numbers[..] else {
        return None;
    };
    Some(Times {
        offset,
        rate: u16::from_be_bytes(rate),
        latencies: Latencies { a, d, f, g },
        slot_length,
    })
}

#[derive(Clone, Copy, Debug, PartialEq, Eq)]
pub enum Item<'a> {
    Device(Device),
    Link(Link),
    Path(Path<'a>),
    Entry(Entry<'a>),
    Timing(Timing),
    Times(Times),
    Reply(Reply<'a>),
}

#[derive(Clone, Copy, Debug, PartialEq, Eq)]
pub struct Device {
    pub offset: usize,
    pub number: u8,
    /// 0 node, 1 router.
    pub kind: u8,
}

#[derive(Clone, Copy, Debug, PartialEq, Eq)]
pub struct Link {
    pub offset: usize,
    pub number: u8,
    pub ends: [u8; 2],
}

#[derive(Clone, Copy, Debug, PartialEq, Eq)]
pub struct Path<'a> {
    pub offset: usize,
    pub initiator: u8,
    pub target: u8,
    pub links: &'a [u8],
}

#[derive(Clone, Copy, Debug, PartialEq, Eq)]
pub struct Entry<'a> {
    pub offset: usize,
    pub initiator: u8,
    pub slot: u8,
    pub span: u8,
    pub targets: &'a [u8],
}

#[derive(Clone, Copy, Debug, PartialEq, Eq)]
pub struct Timing {
    pub offset: usize,
    pub least: u32,
    pub greatest: u32,
}

#[derive(Clone, Copy, Debug, PartialEq, Eq)]
pub struct Times {
    pub offset: usize,
    /// Mbit/s.
    pub rate: u16,
    /// These and the slot length in nanoseconds.
    pub latencies: Latencies,
    pub slot_length: u32,
}

/// The way home of a pair's reply, from its target to its initiator.
#[derive(Clone, Copy, Debug, PartialEq, Eq)]
pub struct Reply<'a> {
    pub offset: usize,
    pub initiator: u8,
    pub target: u8,
    pub links: &'a [u8],
}

impl Entry<'_> {
    /// Slots s to s+n-1, modulo 64.
    pub fn covers(&self, slot: u8) -> bool {
        let after = (i32::from(slot) - i32::from(self.slot)).rem_euclid(64);
        after < i32::from(self.span)
    }

    /// All slots that it covers, as a set.
    pub fn covered(&self) -> u64 {
        set((0..64).filter(|&slot| self.covers(slot)))
    }

    /// The slots that it covers, in words.
    pub fn slots(&self) -> String {
        let last = (i32::from(self.slot) + i32::from(self.span) - 1).rem_euclid(64);
        match self.span {
            1 => format!("slot {}", self.slot),
            _ => format!("slots {} to {last}", self.slot),
        }
    }
}

/// "target 3", "targets 3 4".
pub fn named(name: &str, several: &[u8]) -> String {
    let plural = if several.len() == 1 { "" } else { "s" };
    format!("{name}{plural} {}", numbers(several))
}

/// Numbers with one space between.
pub fn numbers(numbers: &[u8]) -> String {
    let words: Vec<_> = numbers.iter().map(u8::to_string).collect();
    words.join(" ")
}

impl Display for Item<'_> {
    fn fmt(&self, out: &mut Formatter<'_>) -> fmt::Result {
        match self {
            Item::Device(Device { number, kind, .. }) => match kind {
                0 => write!(out, "device {number}, a node"),
                1 => write!(out, "device {number}, a router"),
                _ => write!(out, "device {number}, of kind {kind}"),
            },
            Item::Link(Link { number, ends, .. }) => {
                write!(
                    out,
                    "link {number}, joins devices {} and {}",
                    ends[0], ends[1]
                )
            }
            Item::Path(path) => path.fmt(out),
            Item::Entry(entry) => entry.fmt(out),
            Item::Timing(timing) => {
                write!(out, "timing: least interval {}, ", timing.least)?;
                write!(out, "greatest {}", timing.greatest)
            }
            Item::Times(times) => write!(out, "slot times: {}", times.in_words().join(", ")),
            Item::Reply(reply) => reply.fmt(out),
        }
    }
}

impl Times {
    /// The rate and the slot length, and the latencies.
    pub fn in_words(&self) -> [String; 2] {
        let Latencies { a, d, f, g } = self.latencies;
        [
            format!("{} Mbit/s, slot length {} ns", self.rate, self.slot_length),
            format!("latencies in ns: a {a}, d {d}, f {f}, g {g}"),
        ]
    }
}

impl Display for Path<'_> {
    fn fmt(&self, out: &mut Formatter<'_>) -> fmt::Result {
        let (initiator, target) = (self.initiator, self.target);
        let links = named("link", self.links);
        write!(
            out,
            "path from initiator {initiator} to target {target} over {links}"
        )
    }
}

impl Display for Reply<'_> {
    fn fmt(&self, out: &mut Formatter<'_>) -> fmt::Result {
        let (initiator, target) = (self.initiator, self.target);
        let links = named("link", self.links);
        write!(
            out,
            "reply from target {target} back to initiator {initiator} over {links}"
        )
    }
}

impl Display for Entry<'_> {
    fn fmt(&self, out: &mut Formatter<'_>) -> fmt::Result {
        let (initiator, slot, span) = (self.initiator, self.slot, self.span);
        let targets = named("target", self.targets);
        write!(
            out,
            "entry of initiator {initiator} at slot {slot}, span {span}, {targets}"
        )
    }
}
