//! The counter's sheet: how long transactions take, by themselves and under a plan. Every time is that of the proved sheet.

use crate::fault::{outside, rate_or_latencies};
use crate::fields::{fields, Field, Times};
use crate::layout::{commas, wrapped};
use crate::plan::Plan;
use crate::text::times_line;
use crate::times::{longest, spans, Longest};
use crate::ways::Routers;
use crate::words::{self, TERMS};
use spwd::{sheet2, Latencies, Sheet, SheetOutOfRange};
use spwd::{LENGTH_MOST, ROUTERS_MOST, SLOT_LENGTH_MOST};

/// Lengths whose times are shown of a path.
pub const LENGTHS: [u16; 5] = [0, 64, 256, 1_024, 4_096];
/// Characters of a term's name and of a number, and how many lengths stand beside each other.
const NAME: usize = 41;
const COLUMN: usize = 9;
const BESIDE: usize = 4;

/// What a sheet by itself is of, but for its lengths.
#[derive(Clone, Copy, Debug, PartialEq, Eq)]
pub struct Asked {
    pub routers: Routers,
    pub rate: u16,
    pub latencies: Latencies,
}

impl Asked {
    /// The sheets of these lengths, term by term; or what is out of range.
    pub fn page(&self, lengths: &[u16]) -> Result<Vec<String>, Vec<String>> {
        let columns: Option<Vec<_>> = lengths.iter().map(|&length| self.column(length)).collect();
        let columns = columns.ok_or_else(|| self.out_of_range(lengths))?;
        let (routers, rate) = (words::routers(self.routers), self.rate);
        let mut lines = vec![format!("{routers}, {rate} Mbit/s, times in ns")];
        for (lengths, columns) in lengths.chunks(BESIDE).zip(columns.chunks(BESIDE)) {
            lines.push(String::new());
            lines.extend(rows(lengths, columns));
        }
        Ok(lines)
    }

    /// The proved sheet of a length.
    pub fn sheet(&self, length: u16) -> Result<Sheet, SheetOutOfRange> {
        let Routers { command, reply } = self.routers;
        sheet2(command, reply, self.rate, length, self.latencies)
    }

    /// The nine terms of a length in the order of their letters, and the total.
    fn column(&self, length: u16) -> Option<[u32; 10]> {
        let Latencies { a, d, f, g } = self.latencies;
        let Sheet {
            total,
            b,
            c,
            e,
            h,
            i,
        } = self.sheet(length).ok()?;
        Some([a, b, c, d, e, f, g, h, i, total])
    }

    /// What is out of range, of the sheets of these lengths.
    pub fn out_of_range(&self, lengths: &[u16]) -> Vec<String> {
        let Routers { command, reply } = self.routers;
        let outside_of = |name, count: u8| outside(name, count.into(), 0, ROUTERS_MOST.into());
        let mut found = Vec::new();
        if command == reply {
            found.extend(outside_of("routers", command));
        } else {
            found.extend(outside_of("routers out", command));
            found.extend(outside_of("routers back", reply));
        }
        found.extend(rate_or_latencies(self.rate, self.latencies));
        let length = |&length: &u16| outside("length", length.into(), 0, LENGTH_MOST.into());
        found.extend(lengths.iter().filter_map(length));
        found
    }
}

/// A row for each term, a column for each length.
fn rows(lengths: &[u16], columns: &[[u32; 10]]) -> Vec<String> {
    let terms = TERMS.map(|(letter, means)| format!("({letter}) {means}"));
    let names = terms.iter().map(String::as_str).chain(["total"]);
    let mut lines = vec![row("data bytes", lengths.iter().copied())];
    for (place, name) in names.enumerate() {
        lines.push(row(name, columns.iter().map(|column| column[place])));
    }
    lines
}

fn row(name: &str, numbers: impl Iterator<Item = impl ToString>) -> String {
    let numbers = numbers.map(|number| format!("{:>COLUMN$}", number.to_string()));
    format!("  {name:<NAME$}{}", numbers.collect::<String>())
}

/// A plan file with these bytes of a field 06 in the place of its own; replies stand behind it.
pub fn with_times(file: &[u8], times: &[u8]) -> Vec<u8> {
    let fields = fields(file);
    let others = fields.iter().filter(|field| field.tag() != 6);
    let (before, behind): (Vec<_>, Vec<_>) = others.partition(|field| field.tag() < 6);
    let bytes = |fields: Vec<&Field>| -> Vec<u8> {
        let bytes: Vec<_> = fields.iter().map(|field| field.bytes).collect();
        bytes.concat()
    };
    [&bytes(before), times, &bytes(behind)].concat()
}

/// The sheet of an accepted plan; `own` is whether its times are its own.
pub fn of_plan(plan: &Plan, own: bool) -> Vec<String> {
    let Some(times) = plan.times else {
        return without_times(plan);
    };
    let mut lines = in_words(&times);
    if !own {
        lines.push("  given with --times, not by the plan".to_string());
    }
    lines.push(String::new());
    lines.extend(times_of_paths(plan, &times));
    lines.push(String::new());
    lines.extend(largest_lengths(plan, &times));
    lines.push(String::new());
    lines.extend(suggestion(plan, &times));
    lines
}

/// A plan's times as `spwd-show` has them too.
pub fn in_words(times: &Times) -> Vec<String> {
    let [rate, latencies] = times.in_words();
    vec![format!("slot times: {rate}"), format!("  {latencies}")]
}

fn without_times(plan: &Plan) -> Vec<String> {
    let mut lines = vec!["the routers of each path".to_string()];
    for path in &plan.paths {
        let routers = words::routers(plan.routers(path));
        lines.push(format!(
            "  {} to {}: {routers}",
            path.initiator, path.target
        ));
    }
    lines.extend(
        [
            "",
            "the plan has no slot times, and so no rate: 256 bytes are permitted for each",
            "slot of a span, whatever time they take; a line behind the intervals gives them:",
            "  times S A D F G SLOT",
            "  S is the rate in Mbit/s, A D F G are the latencies and SLOT is the length of",
            "  a slot in ns; to try some: spwd-sheet --times S A D F G SLOT FILE",
        ]
        .map(String::from),
    );
    lines
}

fn times_of_paths(plan: &Plan, times: &Times) -> Vec<String> {
    let mut lines = vec!["time of a transaction in ns, by path and data bytes".to_string()];
    let lengths = LENGTHS.map(|length| format!("{length:>10}")).concat();
    lines.push(format!("  {:<9}{:>8}{lengths}", "path", "routers"));
    for path in &plan.paths {
        let name = format!("{} to {}", path.initiator, path.target);
        let routers = plan.routers(path);
        let time = |length| times.time(routers, length).unwrap_or_default();
        let numbers = LENGTHS.map(|length| format!("{:>10}", time(length)));
        let routers = in_column(routers);
        lines.push(format!("  {name:<9}{routers:>8}{}", numbers.concat()));
    }
    let ways = |path| plan.routers(path);
    if plan
        .paths
        .iter()
        .map(ways)
        .any(|ways| ways.command != ways.reply)
    {
        lines.push("  routers C, R: C on the command's way, R on the reply's".to_string());
    }
    lines
}

/// The routers of a path; and those of its reply, where they are not as many.
pub fn in_column(routers: Routers) -> String {
    let Routers { command, reply } = routers;
    if command == reply {
        command.to_string()
    } else {
        format!("{command}, {reply}")
    }
}

fn largest_lengths(plan: &Plan, times: &Times) -> Vec<String> {
    let head = "largest length in bytes, by path and span of the plan's entries";
    let mut lines = vec![head.to_string()];
    for path in &plan.paths {
        let mut largest = Vec::new();
        for span in spans(plan, path) {
            let length = times.largest(plan.routers(path), span);
            let length = length.map_or("none".to_string(), |length| length.to_string());
            largest.push(format!("span {span}: {length}"));
        }
        if largest.is_empty() {
            largest.push("no entry".to_string());
        }
        let head = format!("  {} to {}:", path.initiator, path.target);
        lines.extend(wrapped(&head, &commas(largest)));
    }
    lines
}

/// The least slot length that permits as much as a plan without times does. An accepted plan has an entry that says it.
fn suggestion(plan: &Plan, times: &Times) -> Vec<String> {
    let Some(longest) = longest(plan, times) else {
        return Vec::new();
    };
    let Longest {
        entry,
        target,
        length,
        time,
        slot_length,
    } = longest;
    let (initiator, slot, span) = (entry.initiator, entry.slot, entry.span);
    let bytes = words::bytes(length);
    let mut lines = vec![
        format!("least slot length that permits 256 bytes for each slot of every span: {slot_length} ns"),
        format!("  the entry of initiator {initiator} at slot {slot}, span {span}, target {target} needs it:"),
        format!("  {bytes} take {time} ns"),
    ];
    if slot_length > SLOT_LENGTH_MOST {
        lines.push(format!(
            "  it cannot be given: {SLOT_LENGTH_MOST} ns are the most (longer spans, shorter requests)"
        ));
    } else {
        let line = times_line(&Times {
            slot_length,
            ..*times
        });
        lines.push(format!("  as a line of its text: {line}"));
    }
    lines
}
