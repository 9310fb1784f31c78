//! All overruns and all clashes of a plan's entries, in the order in which the box finds them: the first is its own verdict.

use crate::fields::Entry;
use crate::plan::Plan;
use crate::sets::{members, set};

/// An entry that is still running when the next one of the same initiator begins.
#[derive(Clone, Copy, Debug, PartialEq, Eq)]
pub struct Overrun<'a> {
    pub entry: Entry<'a>,
    pub next: Entry<'a>,
}

/// By initiator and slot.
pub fn overruns<'a>(plan: &Plan<'a>) -> Vec<Overrun<'a>> {
    let mut found: Vec<_> = plan
        .entries
        .iter()
        .filter_map(|&entry| {
            let next = next(plan, &entry)?;
            entry.covers(next.slot).then_some(Overrun { entry, next })
        })
        .collect();
    found.sort_unstable_by_key(|overrun| (overrun.entry.initiator, overrun.entry.slot));
    found
}

/// The entry of the same initiator at the first slot after this one's.
fn next<'a>(plan: &Plan<'a>, entry: &Entry) -> Option<Entry<'a>> {
    let after = |other: &Entry| (i32::from(other.slot) - i32::from(entry.slot)).rem_euclid(64);
    let others = plan.entries_of(entry.initiator);
    let others = others.filter(|other| other.slot != entry.slot);
    others.min_by_key(|other| after(other)).copied()
}

/// Two entries of two initiators, the smaller first, that cover slots together and may use links together.
#[derive(Clone, Copy, Debug, PartialEq, Eq)]
pub struct Clash<'a> {
    pub entries: [Entry<'a>; 2],
    /// Sets: bit n is slot n, or link n.
    pub slots: u64,
    pub links: u64,
}

impl Clash<'_> {
    /// The first of its places as the box says it: slot, smaller and greater initiator, link.
    pub fn first(&self) -> [u8; 4] {
        let [smaller, greater] = self.entries.map(|entry| entry.initiator);
        let least = |set: u64| set.trailing_zeros() as u8;
        [least(self.slots), smaller, greater, least(self.links)]
    }
}

/// By the first of their places.
pub fn clashes<'a>(plan: &Plan<'a>) -> Vec<Clash<'a>> {
    let entries: Vec<_> = plan
        .entries
        .iter()
        .map(|entry| Used::of(plan, entry))
        .collect();
    let mut found = Vec::new();
    for one in &entries {
        let clashes = entries.iter().filter_map(|other| one.meets(other));
        found.extend(clashes);
    }
    found.sort_unstable_by_key(Clash::first);
    found
}

/// An entry, and all slots and links that it may use.
struct Used<'a> {
    entry: Entry<'a>,
    slots: u64,
    links: u64,
}

impl<'a> Used<'a> {
    fn of(plan: &Plan, entry: &Entry<'a>) -> Self {
        let ways = entry.targets.iter().flat_map(|&target| {
            let path = plan.path(entry.initiator, target).map(|path| path.links);
            let reply = plan.reply(entry.initiator, target).map(|reply| reply.links);
            path.into_iter().chain(reply).flatten().copied()
        });
        Self {
            entry: *entry,
            slots: entry.covered(),
            links: set(ways),
        }
    }

    /// Nothing where the other one's initiator is not the greater.
    fn meets(&self, other: &Self) -> Option<Clash<'a>> {
        let (slots, links) = (self.slots & other.slots, self.links & other.links);
        let clash = self.entry.initiator < other.entry.initiator && slots != 0 && links != 0;
        clash.then_some(Clash {
            entries: [self.entry, other.entry],
            slots,
            links,
        })
    }
}

/// Slots one after another, over 63 to 0 too: "slot 5", "slots 62 to 0".
pub fn slots_in_words(slots: u64) -> String {
    let begins = slots & !slots.rotate_left(1);
    let (first, count) = (begins.trailing_zeros(), slots.count_ones());
    match (begins.count_ones(), count) {
        (1, 1) => format!("slot {first}"),
        (1, _) => format!("slots {first} to {}", (first + count - 1) % 64),
        _ => {
            let slots: Vec<_> = members(slots).iter().map(u8::to_string).collect();
            format!("slots {}", slots.join(" "))
        }
    }
}
