//! The times of each path by the plan's slot times, and how much of its span an entry needs at most. Every time is that of the proved sheet.

use crate::fields::{numbers, Entry, Times};
use crate::html::document::{folded, section};
use crate::html::element::{element, table_head, words, Element};
use crate::html::marks::Marks;
use crate::plan::Plan;
use crate::sheet::{in_column, LENGTHS};

/// Nothing of a plan without slot times.
pub fn times(plan: &Plan, marks: &Marks) -> Option<Element> {
    let times = plan.times?;
    let [rate, latencies] = times.in_words();
    let given = words("p", format!("{rate}; {latencies}.")).class("lead");
    let section = section("times", "Times")
        .add(marks.field(given, times.offset, "times"))
        .add(words(
            "h3",
            "Time of a transaction in ns, by path and data bytes",
        ))
        .add(of_paths(plan, &times))
        .add(words("h3", "How much of its span an entry needs at most"))
        .add(needs(plan, &times))
        .add(words("p", LEGEND).class("small"));
    Some(section)
}

const LEGEND: &str = "The longest permitted request to any target of the entry, its time, and that as a part of the slot length × the span, rounded up. \
Routers C, R: C on the command's way, R on the reply's.";

fn cells(name: &'static str, numbers: impl IntoIterator<Item = String>) -> Vec<Element> {
    let numbers = numbers.into_iter();
    numbers
        .map(|number| words(name, number).class("number"))
        .collect()
}

/// Times below this have room in half the page.
const SIX_DIGITS: u32 = 1_000_000;

fn of_paths(plan: &Plan, times: &Times) -> Element {
    let head = ["from", "to", "routers"].map(String::from).into_iter();
    let head = head.chain(LENGTHS.map(|length| length.to_string()));
    let head = element("tr").add_all(cells("th", head));
    let mut body = element("tbody");
    for path in &plan.paths {
        let routers = plan.routers(path);
        let time = |length| {
            let time = times.time(routers, length);
            time.map_or("-".to_string(), |time| time.to_string())
        };
        let pair = [path.initiator, path.target].map(|device| device.to_string());
        let numbers = pair.into_iter().chain([in_column(routers)]);
        let numbers = numbers.chain(LENGTHS.map(time));
        let row = element("tr")
            .with("data-times", format!("{}-{}", path.initiator, path.target))
            .add_all(cells("td", numbers));
        body = body.add(row);
    }
    let table = element("table").add(element("thead").add(head)).add(body);
    let longest = LENGTHS.last().copied().unwrap_or_default();
    let times = plan
        .paths
        .iter()
        .map(|path| times.time(plan.routers(path), longest));
    let narrow = times.flatten().all(|time| time < SIX_DIGITS);
    folded(table, plan.paths.len(), narrow)
}

/// Entries that need the same: of one initiator, with one span and the same targets.
struct Alike<'a> {
    entry: Entry<'a>,
    slots: Vec<u8>,
}

fn alike<'a>(plan: &Plan<'a>) -> Vec<Alike<'a>> {
    let mut found: Vec<Alike> = Vec::new();
    for &entry in &plan.entries {
        let same = |alike: &&mut Alike| {
            let own = &alike.entry;
            (own.initiator, own.span, own.targets) == (entry.initiator, entry.span, entry.targets)
        };
        match found.iter_mut().find(same) {
            Some(alike) => alike.slots.push(entry.slot),
            None => found.push(Alike {
                entry,
                slots: vec![entry.slot],
            }),
        }
    }
    found
}

/// The longest permitted request of an entry: to which target, how many bytes, and its time.
struct Need {
    target: u8,
    length: u16,
    time: u32,
}

/// Over all targets that are permitted at all.
fn need(plan: &Plan, times: &Times, entry: &Entry) -> Option<Need> {
    let needs = entry.targets.iter().filter_map(|&target| {
        let routers = plan.routers(&plan.path(entry.initiator, target)?);
        let length = times.largest(routers, entry.span)?;
        let time = times.time(routers, length)?;
        Some(Need {
            target,
            length,
            time,
        })
    });
    needs.fold(None, |most: Option<Need>, need| match most {
        Some(most) if most.time >= need.time => Some(most),
        _ => Some(need),
    })
}

fn needs(plan: &Plan, times: &Times) -> Element {
    let head = [
        "#initiator",
        "*at slots",
        "#span",
        "targets",
        "#bytes",
        "#to",
        "#ns",
        "#of ns",
        "#%",
    ];
    let mut body = element("tbody");
    for alike in alike(plan) {
        body = body.add(need_row(plan, times, &alike));
    }
    element("table")
        .class("wide")
        .add(table_head(&head))
        .add(body)
}

/// The targets of an entry, and those of them that it never permits.
fn targets(plan: &Plan, times: &Times, entry: &Entry) -> String {
    let fits = |&target: &u8| {
        let path = plan.path(entry.initiator, target);
        path.is_some_and(|path| times.largest(plan.routers(&path), entry.span).is_some())
    };
    let never: Vec<u8> = entry
        .targets
        .iter()
        .copied()
        .filter(|target| !fits(target))
        .collect();
    let targets = numbers(entry.targets);
    if never.is_empty() || never.len() == entry.targets.len() {
        targets
    } else {
        format!("{targets}; never {}", numbers(&never))
    }
}

fn need_row(plan: &Plan, times: &Times, alike: &Alike) -> Element {
    let entry = &alike.entry;
    let span = times.time_of(entry.span);
    let row = element("tr")
        .with(
            "data-need",
            format!("{}-{}", entry.initiator, numbers(&alike.slots)),
        )
        .add(words("td", entry.initiator).class("number"))
        .add(words("td", numbers(&alike.slots)))
        .add(words("td", entry.span).class("number"))
        .add(words("td", targets(plan, times, entry)));
    let Some(need) = need(plan, times, entry) else {
        let never = words("td", "never permitted: not even 0 bytes fit").with("colspan", 5);
        return row.add(never);
    };
    let percent = (100 * u64::from(need.time)).div_ceil(span.max(1));
    let needs = [
        need.length.to_string(),
        need.target.to_string(),
        need.time.to_string(),
        span.to_string(),
        percent.to_string(),
    ];
    row.add_all(cells("td", needs))
}
