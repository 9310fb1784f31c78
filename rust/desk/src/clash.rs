//! Verdicts 13 and 14: the entries that meet. Which initiators, slot and link it is about is the box's word.

use crate::fields::{Entry, Item};
use crate::layout::{commas, wrapped};
use crate::plan::Plan;
use crate::source::Source;
use crate::ways::Way;

/// An entry with the slots it covers and its line.
fn entry_in_words(source: &Source, entry: &Entry) -> Vec<String> {
    let mut lines = vec![format!(
        "  {}: covers {}",
        Item::Entry(*entry),
        entry.slots()
    )];
    lines.extend(
        source
            .line_at(entry.offset)
            .map(|line| format!("    {line}")),
    );
    lines
}

/// Verdict 13: the entry, and those of the same initiator that begin while it is running.
pub fn overrun(source: &Source, plan: &Plan, initiator: u8, slot: u8) -> Vec<String> {
    let Some(entry) = plan.entry(initiator, slot) else {
        return Vec::new();
    };
    let mut lines = vec![format!("initiator {initiator}: still running")];
    lines.extend(entry_in_words(source, &entry));
    lines.push("when this begins".to_string());
    let begin = |after: &&Entry| after.slot != entry.slot && entry.covers(after.slot);
    for after in plan.entries_of(initiator).filter(begin) {
        lines.extend(entry_in_words(source, after));
    }
    lines
}

/// A way over the link: of the command, of the reply, or of both where the reply goes back over the command's links.
struct Meets<'a> {
    initiator: u8,
    target: u8,
    which: Which,
    way: Way<'a>,
}

#[derive(Clone, Copy, PartialEq, Eq)]
enum Which {
    Both,
    Command,
    Reply,
}

/// Verdict 14: of both initiators the entry that covers the slot, and the ways of its targets that use the link.
pub fn clash(source: &Source, plan: &Plan, slot: u8, both: [u8; 2], link: u8) -> Vec<String> {
    let entries = both.iter().flat_map(|&initiator| {
        plan.entries_of(initiator)
            .filter(|entry| entry.covers(slot))
    });
    let (mut lines, mut meet) = (Vec::new(), Vec::new());
    for entry in entries {
        lines.extend(entry_in_words(source, entry));
        let ways = ways_over(plan, entry, link);
        lines.extend(ways.iter().map(|way| drawn(plan, way, link)));
        meet.extend(ways);
    }
    let head = vec![head(plan, slot, link)];
    [head, who_meet(&meet, link), lines].concat()
}

fn head(plan: &Plan, slot: u8, link: u8) -> String {
    let ends = plan.link(link).map_or(String::new(), |link| {
        format!(" ({}-{})", link.ends[0], link.ends[1])
    });
    format!("slot {slot}, link {link}{ends}: both may be using it")
}

/// Which ways of which pairs meet on the link; nothing where no reply has a way of its own.
fn who_meet(meet: &[Meets], link: u8) -> Vec<String> {
    if meet.iter().all(|way| way.which == Which::Both) {
        return Vec::new();
    }
    let who = |way: &Meets| {
        let which = match way.which {
            Which::Both => "the command and the reply",
            Which::Command => "the command",
            Which::Reply => "the reply",
        };
        format!("{which} of {} to {}", way.initiator, way.target)
    };
    let who = meet.iter().map(who).collect();
    wrapped(&format!("  link {link}:"), &commas(who))
}

/// The ways of an entry's targets that use a link.
fn ways_over<'a>(plan: &Plan<'a>, entry: &Entry, link: u8) -> Vec<Meets<'a>> {
    let targets = entry.targets.iter();
    let ways = targets.flat_map(|&target| ways(plan, entry.initiator, target));
    ways.filter(|meets| meets.way.links.contains(&link))
        .collect()
}

/// The ways of a pair that has a path.
fn ways<'a>(plan: &Plan<'a>, initiator: u8, target: u8) -> Vec<Meets<'a>> {
    let path = plan.path(initiator, target).map(|path| path.way());
    let reply = plan.reply(initiator, target).map(|reply| reply.way());
    let which = if reply.is_none() {
        Which::Both
    } else {
        Which::Command
    };
    let meets = |which, way| Meets {
        initiator,
        target,
        which,
        way,
    };
    let path = path.map(|way| meets(which, way));
    let reply = reply.map(|way| meets(Which::Reply, way));
    path.into_iter().chain(reply).collect()
}

/// A way with its target; the link is drawn double.
fn drawn(plan: &Plan, meets: &Meets, link: u8) -> String {
    let which = match meets.which {
        Which::Both => "",
        Which::Command => ", command",
        Which::Reply => ", reply",
    };
    let walk = plan.drawn(&meets.way, Some(link));
    format!("    target {}{which}: {walk}", meets.target)
}
