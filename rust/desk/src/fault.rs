//! A field that was refused, verdicts 2 to 11: its bytes, what it says, and what is at fault in it. The number and the offset are the
//! box's; which of the field's numbers it is about is looked up in the plan before the field.

use crate::fields::{
    fields, numbers, Device, Entry, Field, Item, Link, Path, Reply, Times, Timing,
};
use crate::layout::hex;
use crate::plan::Plan;
use crate::source::Source;
use crate::text::not_well_formed;
use crate::ways::Way;
use spwd::{Latencies, LATENCY_MOST, RATE_LEAST, RATE_MOST, SLOT_LENGTH_MOST};

/// The field at an offset, in lines.
pub fn field_in_words(source: &Source, number: u8, offset: usize) -> Vec<String> {
    let fields = fields(source.bytes());
    let Some(place) = fields.iter().position(|field| field.offset == offset) else {
        return Vec::new();
    };
    let field = &fields[place];
    let mut lines = vec![format!(
        "the field at offset {offset}: {}",
        hex(field.bytes)
    )];
    lines.extend(source.line_at(offset).map(|line| format!("    {line}")));
    lines.extend(field.item().map(|item| format!("    {item}")));
    let reasons = reasons(source, number, &fields[..place], field);
    lines.extend(reasons.into_iter().map(|reason| format!("    {reason}")));
    lines
}

/// What is at fault in a field, after the fields before it, if the box refuses it with this number.
pub fn reasons(source: &Source, number: u8, before: &[Field], field: &Field) -> Vec<String> {
    let plan = Plan::given(before);
    match (number, field.item()) {
        (2 | 3 | 5, _) => vec![not_well_formed(field)],
        (4, _) => out_of_order(source, before.last(), field),
        (6, Some(item)) => out_of_range(&item),
        (7, Some(item)) => given_before(source, &plan, &item),
        (8, Some(item)) => not_given(&plan, &item),
        (9, Some(Item::Path(path))) => too_many(&plan, &path),
        (10, Some(Item::Path(path))) => plan.walk(&path.way()).err().into_iter().collect(),
        (10, Some(Item::Reply(reply))) => no_walk_home(&plan, &reply),
        (11, Some(Item::Entry(entry))) => without_path(&plan, &entry),
        (11, Some(Item::Reply(reply))) => without_command(&plan, &reply),
        _ => Vec::new(),
    }
}

fn out_of_order(source: &Source, before: Option<&Field>, field: &Field) -> Vec<String> {
    let tag = |field: &Field| {
        let name = field.row().map_or("unknown", |row| row.name);
        format!("tag {:02x} ({name})", field.tag())
    };
    let found = before.map(|before| {
        let (this, other) = (tag(field), tag(before));
        let place = source.place(before.offset);
        if this == other {
            format!("{this} comes once, and the first stands at {place}")
        } else {
            format!("{this} behind {other} at {place}")
        }
    });
    found.into_iter().collect()
}

/// The devices and links of an item: what each is called and its number.
fn named(item: &Item) -> Vec<(&'static str, u8)> {
    fn each(name: &'static str, numbers: &[u8]) -> Vec<(&'static str, u8)> {
        numbers.iter().map(|&number| (name, number)).collect()
    }
    match *item {
        Item::Device(Device { number, .. }) => vec![("device", number)],
        Item::Link(Link { number, ends, .. }) => {
            [each("link", &[number]), each("device", &ends)].concat()
        }
        Item::Path(Path {
            initiator,
            target,
            links,
            ..
        })
        | Item::Reply(Reply {
            initiator,
            target,
            links,
            ..
        }) => [
            each("initiator", &[initiator]),
            each("target", &[target]),
            each("link", links),
        ]
        .concat(),
        Item::Entry(entry) => [
            each("initiator", &[entry.initiator]),
            each("slot", &[entry.slot]),
            each("target", entry.targets),
        ]
        .concat(),
        Item::Timing(_) | Item::Times(_) => Vec::new(),
    }
}

/// What is said of a number that is not within its bounds.
pub fn outside(name: &str, number: u32, least: u32, most: u32) -> Option<String> {
    let within = (least..=most).contains(&number);
    (!within).then(|| format!("{name} {number} is out of range: right is {least} to {most}"))
}

fn out_of_range(item: &Item) -> Vec<String> {
    let mut found = Vec::new();
    for (name, number) in named(item) {
        found.extend(outside(name, number.into(), 0, 63));
    }
    match *item {
        Item::Device(Device { kind, .. }) if kind > 1 => {
            found.push(format!("kind {kind} is neither 0 (node) nor 1 (router)"));
        }
        Item::Link(Link { ends, .. }) if ends[0] == ends[1] => {
            found.push(format!("the link joins device {} to itself", ends[0]));
        }
        Item::Path(path) if path.initiator == path.target => {
            found.push(format!(
                "the path leads from device {} to itself",
                path.target
            ));
        }
        Item::Reply(reply) if reply.initiator == reply.target => {
            found.push(format!(
                "the reply leads from device {} to itself",
                reply.target
            ));
        }
        Item::Entry(entry) => found.extend(outside("span", entry.span.into(), 1, 16)),
        Item::Timing(timing) => found.extend(interval(&timing)),
        Item::Times(times) => found.extend(times_out_of_range(&times)),
        _ => {}
    }
    found
}

fn interval(timing: &Timing) -> Option<String> {
    const MOST: u32 = 2_147_483_647;
    let Timing {
        least, greatest, ..
    } = *timing;
    match greatest {
        1..=MOST if least > greatest => Some(format!(
            "the least interval {least} is above the greatest, {greatest}"
        )),
        1..=MOST => None,
        _ => Some(format!(
            "the greatest interval {greatest} is out of range: right is 1 to {MOST}"
        )),
    }
}

fn times_out_of_range(times: &Times) -> Vec<String> {
    let mut found = rate_or_latencies(times.rate, times.latencies);
    found.extend(outside(
        "slot length",
        times.slot_length,
        0,
        SLOT_LENGTH_MOST,
    ));
    found
}

/// What of these is out of range, in a plan's times and in a sheet by itself.
pub fn rate_or_latencies(rate: u16, latencies: Latencies) -> Vec<String> {
    let Latencies { a, d, f, g } = latencies;
    let latency = |name, number| outside(name, number, 0, LATENCY_MOST);
    [
        outside("rate", rate.into(), RATE_LEAST.into(), RATE_MOST.into()),
        latency("latency a", a),
        latency("latency d", d),
        latency("latency f", f),
        latency("latency g", g),
    ]
    .into_iter()
    .flatten()
    .collect()
}

fn given_before(source: &Source, plan: &Plan, item: &Item) -> Vec<String> {
    let (what, first) = match *item {
        Item::Device(device) => (
            format!("device {}", device.number),
            plan.device(device.number).map(|first| first.offset),
        ),
        Item::Link(link) => (
            format!("link {}", link.number),
            plan.link(link.number).map(|first| first.offset),
        ),
        Item::Path(path) => (
            format!("a path from {} to {}", path.initiator, path.target),
            plan.path(path.initiator, path.target)
                .map(|first| first.offset),
        ),
        Item::Entry(entry) => (
            format!("an entry of {} at slot {}", entry.initiator, entry.slot),
            plan.entry(entry.initiator, entry.slot)
                .map(|first| first.offset),
        ),
        Item::Reply(reply) => (
            format!("a reply from {} back to {}", reply.target, reply.initiator),
            plan.reply(reply.initiator, reply.target)
                .map(|first| first.offset),
        ),
        Item::Timing(_) | Item::Times(_) => return Vec::new(),
    };
    let first = first.map(|offset| format!("{what} was given at {}", source.place(offset)));
    first.into_iter().chain(twice(item)).collect()
}

/// Targets that stand twice in an entry.
fn twice(item: &Item) -> Vec<String> {
    let Item::Entry(entry) = item else {
        return Vec::new();
    };
    let mut targets = entry.targets.to_vec();
    targets.sort_unstable();
    let mut twice: Vec<_> = targets
        .windows(2)
        .filter(|pair| pair[0] == pair[1])
        .map(|pair| format!("target {} stands twice", pair[0]))
        .collect();
    twice.dedup();
    twice
}

fn not_given(plan: &Plan, item: &Item) -> Vec<String> {
    // The number that a link gives itself is not one that it names.
    let own = usize::from(matches!(item, Item::Link(_)));
    let mut found = Vec::new();
    for (name, number) in named(item).into_iter().skip(own) {
        let kind = plan.device(number).map(|device| device.kind);
        match (name, kind) {
            ("slot", _) => {}
            ("link", _) if plan.link(number).is_some() => {}
            ("link", _) => found.push(format!("link {number} was not given")),
            (_, None) => found.push(format!("{name} {number}: no such device was given")),
            ("initiator" | "target", Some(1)) => {
                found.push(format!("{name} {number} is a router"));
            }
            _ => {}
        }
    }
    found.dedup();
    found
}

fn too_many(plan: &Plan, path: &Path) -> Vec<String> {
    let mut found = Vec::new();
    let initiators = plan.initiators();
    if initiators.len() >= 8 && !initiators.contains(&path.initiator) {
        let eight = numbers(&initiators);
        found.push(format!(
            "initiators so far: {eight}; {} would be one more",
            path.initiator
        ));
    }
    if plan.paths.len() >= 128 {
        found.push(format!("{} paths stand before this one", plan.paths.len()));
    }
    found
}

/// What keeps the links of a reply from being a walk from its target; and the links the other way round, where these are right.
fn no_walk_home(plan: &Plan, reply: &Reply) -> Vec<String> {
    let home = reply.way();
    let mut found: Vec<_> = plan.walk(&home).err().into_iter().collect();
    let out = Way {
        from: home.to,
        to: home.from,
        ..home
    };
    if plan.walk(&out).is_ok() {
        let (initiator, target) = (reply.initiator, reply.target);
        let back: Vec<_> = reply.links.iter().rev().copied().collect();
        let back = numbers(&back);
        found.push(format!(
            "the links lead from initiator {initiator} to target {target}; the way back is: reply {initiator} {target} {back}"
        ));
    }
    found
}

/// A reply with no path: of its pair, though perhaps of the two the other way round.
fn without_command(plan: &Plan, reply: &Reply) -> Vec<String> {
    let (initiator, target) = (reply.initiator, reply.target);
    let mut found = vec![format!(
        "there is no path from initiator {initiator} to target {target}, and a reply belongs to one"
    )];
    if plan.path(target, initiator).is_some() {
        found.push(format!(
            "there is one from {target} to {initiator}: in a reply, too, the initiator stands first"
        ));
    }
    found
}

fn without_path(plan: &Plan, entry: &Entry) -> Vec<String> {
    let initiator = entry.initiator;
    let missing = entry
        .targets
        .iter()
        .filter(|&&target| plan.path(initiator, target).is_none());
    missing
        .map(|target| format!("there is no path from initiator {initiator} to target {target}"))
        .collect()
}
