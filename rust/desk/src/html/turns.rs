//! Of each pair of initiator and target its turns in the epoch of sixty-four slots, and the longest wait between them: the next turn after a
//! slot is the proved box's answer, asked again from each turn that it names.

use crate::html::document::{folded, section};
use crate::html::element::{element, table_head, words, Element};
use crate::plan::Plan;
use crate::turns::Wanted;
use spwd::{Spwd, LENGTH_MOST, SLOTS};

/// The turns of a request, rising, and the slots from each to the next.
#[derive(Clone, Debug, PartialEq, Eq)]
pub struct Turns {
    pub slots: Vec<u8>,
    pub waits: Vec<u8>,
}

impl Turns {
    /// Nothing where the box refuses.
    pub fn of(desk: &Spwd, wanted: &Wanted) -> Option<Self> {
        let after = |slot: u8| {
            let wait = wanted.next(desk, slot).ok()?;
            Some(((slot + wait) % SLOTS, wait))
        };
        let (first, _) = after(SLOTS - 1)?;
        let (mut slots, mut waits, mut slot) = (Vec::new(), Vec::new(), first);
        while slots.len() < usize::from(SLOTS) {
            let (next, wait) = after(slot)?;
            slots.push(slot);
            waits.push(wait);
            slot = next;
            if slot == first {
                break;
            }
        }
        Some(Self { slots, waits })
    }

    pub fn longest(&self) -> u8 {
        self.waits.iter().copied().max().unwrap_or(0)
    }
}

/// The largest length that has a turn: where one has none, no longer one has.
pub fn largest(desk: &Spwd, initiator: u8, target: u8) -> Option<u16> {
    let has = |length| {
        let wanted = Wanted {
            initiator,
            target,
            length,
        };
        wanted.next(desk, 0).is_ok()
    };
    let (mut least, mut most) = (0, LENGTH_MOST + 1);
    while least < most {
        let middle = (least + most) / 2;
        if has(middle) {
            least = middle + 1;
        } else {
            most = middle;
        }
    }
    least.checked_sub(1)
}

/// Of a plan that a box holds.
pub fn turns(plan: &Plan, desk: &Spwd) -> Element {
    let head = [
        "#from",
        "#to",
        "#bytes",
        "#turns",
        "*in slots",
        "#longest wait",
    ];
    let mut body = element("tbody");
    for path in &plan.paths {
        body = body.add_all(rows(desk, path.initiator, path.target));
    }
    let table = element("table")
        .class("wide")
        .add(table_head(&head))
        .add(body);
    section("turns", "Turns")
        .add(folded(table, plan.paths.len(), true))
        .add(words("p", LEGEND).class("small"))
}

const LEGEND: &str = "A turn is a slot at which an entry stands that permits a request of so many bytes: 0 bytes, which every entry for the target permits \
that permits anything, and, where it has other turns, the largest length that is ever permitted. A wait is counted in slots from one turn to the next.";

/// A row for length 0, and one for the largest length if its turns are others.
fn rows(desk: &Spwd, initiator: u8, target: u8) -> Vec<Element> {
    let wanted = |length| Wanted {
        initiator,
        target,
        length,
    };
    let least = Turns::of(desk, &wanted(0));
    let Some((least, most)) = least.zip(largest(desk, initiator, target)) else {
        let none = words("td", "no turn: no entry permits anything").with("colspan", 4);
        return vec![pair(initiator, target).add(none)];
    };
    let longest = Turns::of(desk, &wanted(most)).filter(|turns| *turns != least);
    let bytes = match longest {
        Some(_) => "0".to_string(),
        None => format!("0 to {most}"),
    };
    let longest = longest.map(|turns| row(&wanted(most), &most.to_string(), &turns));
    let mut rows = vec![row(&wanted(0), &bytes, &least)];
    rows.extend(longest);
    rows
}

fn pair(initiator: u8, target: u8) -> Element {
    element("tr")
        .with("data-turns", format!("{initiator}-{target}"))
        .add(words("td", initiator).class("number"))
        .add(words("td", target).class("number"))
}

fn row(wanted: &Wanted, bytes: &str, turns: &Turns) -> Element {
    let cell = |words_: String| words("td", words_).class("number");
    pair(wanted.initiator, wanted.target)
        .with("data-length", wanted.length)
        .add(cell(bytes.to_string()))
        .add(cell(turns.slots.len().to_string()))
        .add(words("td", ranges(&turns.slots)))
        .add(cell(turns.longest().to_string()))
}

/// Rising numbers, with "to" where three or more follow each other.
fn ranges(numbers: &[u8]) -> String {
    let mut ranges: Vec<(u8, u8)> = Vec::new();
    for &number in numbers {
        match ranges.last_mut() {
            Some((_, last)) if *last + 1 == number => *last = number,
            _ => ranges.push((number, number)),
        }
    }
    let range = |&(first, last): &(u8, u8)| match last - first {
        0 => first.to_string(),
        1 => format!("{first}, {last}"),
        _ => format!("{first} to {last}"),
    };
    let ranges: Vec<_> = ranges.iter().map(range).collect();
    ranges.join(", ")
}
