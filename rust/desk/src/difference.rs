//! The first difference between the plan in a box and that of a file, in words.

use crate::fields::{named, Entry, Times};
use crate::plan::Plan;
use spwd::Latencies;
use std::collections::BTreeMap;

/// What a plan says of one thing: its name, and each part of what is said.
struct Said {
    name: String,
    parts: Vec<String>,
}

fn said(name: String, parts: &[String]) -> Said {
    let parts = parts.to_vec();
    Said { name, parts }
}

/// Things by their tag and numbers: so they stand in the order of a canonical file.
type Things = BTreeMap<[u8; 3], Said>;

/// Nothing where the plans are the same.
pub fn difference(held: &Plan, given: &Plan) -> Option<String> {
    let (held, given) = (things(held), things(given));
    let mut keys: Vec<_> = held.keys().chain(given.keys()).collect();
    keys.sort_unstable();
    keys.into_iter()
        .find_map(|key| differ(held.get(key), given.get(key)))
}

fn differ(held: Option<&Said>, given: Option<&Said>) -> Option<String> {
    let (held, given) = match (held, given) {
        (Some(held), Some(given)) => (held, given),
        (Some(held), None) => return Some(format!("{}: only in the box", held.name)),
        (None, Some(given)) => return Some(format!("{}: only in the file", given.name)),
        (None, None) => return None,
    };
    let mut parts = held.parts.iter().zip(&given.parts);
    let (in_box, in_file) = parts.find(|(held, given)| held != given)?;
    let name = &held.name;
    Some(format!(
        "{name}: {in_box} in the box, {in_file} in the file"
    ))
}

fn things(plan: &Plan) -> Things {
    let mut things = Things::new();
    things.extend(plan.devices.iter().map(|device| {
        let number = device.number;
        let kind = if device.kind == 0 {
            "a node"
        } else {
            "a router"
        };
        (
            [1, number, 0],
            said(format!("device {number}"), &[kind.to_string()]),
        )
    }));
    things.extend(plan.links.iter().map(|link| {
        let (number, [one, other]) = (link.number, link.ends);
        let joins = format!("joins devices {one} and {other}");
        ([2, number, 0], said(format!("link {number}"), &[joins]))
    }));
    things.extend(plan.paths.iter().map(|path| {
        let (initiator, target) = (path.initiator, path.target);
        let name = format!("path from initiator {initiator} to target {target}");
        ([3, initiator, target], said(name, &[over(path.links)]))
    }));
    things.extend(plan.entries.iter().map(entry));
    things.extend(plan.timing.iter().map(|timing| {
        let (least, greatest) = (timing.least, timing.greatest);
        let parts = [format!("least {least}"), format!("greatest {greatest}")];
        ([5, 0, 0], said("interval".to_string(), &parts))
    }));
    things.extend(plan.times.iter().map(times));
    things.extend(plan.replies.iter().map(|reply| {
        let (initiator, target) = (reply.initiator, reply.target);
        let name = format!("reply from target {target} back to initiator {initiator}");
        ([7, initiator, target], said(name, &[over(reply.links)]))
    }));
    things
}

fn over(links: &[u8]) -> String {
    format!("over {}", named("link", links))
}

fn entry(entry: &Entry) -> ([u8; 3], Said) {
    let (initiator, slot, span) = (entry.initiator, entry.slot, entry.span);
    let name = format!("entry of initiator {initiator} at slot {slot}");
    let parts = [format!("span {span}"), named("target", entry.targets)];
    ([4, initiator, slot], said(name, &parts))
}

fn times(times: &Times) -> ([u8; 3], Said) {
    let Latencies { a, d, f, g } = times.latencies;
    let parts = [
        format!("{} Mbit/s", times.rate),
        format!("latency a {a} ns"),
        format!("latency d {d} ns"),
        format!("latency f {f} ns"),
        format!("latency g {g} ns"),
        format!("slot length {} ns", times.slot_length),
    ];
    ([6, 0, 0], said("slot times".to_string(), &parts))
}
