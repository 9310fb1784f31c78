//! What else is at fault in a refused plan. Faulty fields are the box's own word: the field that it names is left out, and it is asked
//! again. Overruns and clashes are looked for in what is left.

use crate::fault::reasons;
use crate::fields::{fields, numbers, Entry, Field};
use crate::layout::{hex, shortened};
use crate::overlaps::{clashes, overruns, slots_in_words, Clash, Overrun};
use crate::plan::Plan;
use crate::sets::members;
use crate::source::Source;
use crate::taken::hint;
use crate::words;
use spwd::{Fault, Spwd, Verdict};

/// How many of each are listed; of more only how many there are.
const MOST: usize = 20;

/// A field that the box refuses once those before it are left out, and why.
#[derive(Debug)]
pub struct Faulty<'a> {
    pub number: u8,
    pub field: Field<'a>,
    pub reasons: Vec<String>,
}

/// The fields of a file: those at fault, in the order in which the box finds them, and the others.
#[derive(Debug)]
pub struct Sifted<'a> {
    pub faulty: Vec<Faulty<'a>>,
    pub kept: Vec<Field<'a>>,
}

pub fn sifted(source: &Source) -> Sifted<'_> {
    let mut kept = fields(source.bytes());
    let mut faulty = Vec::new();
    let mut desk = Spwd::new();
    while let Some((number, place)) = at_fault(&mut desk, &kept) {
        let reasons = reasons(source, number, &kept[..place], &kept[place]);
        let field = kept.remove(place);
        faulty.push(Faulty {
            number,
            field,
            reasons,
        });
    }
    Sifted { faulty, kept }
}

/// Which of these fields the box refuses, and the verdict's number.
fn at_fault(desk: &mut Spwd, fields: &[Field]) -> Option<(u8, usize)> {
    let bytes: Vec<_> = fields.iter().map(|field| field.bytes).collect();
    let Err(Fault::File {
        number: number @ Verdict::CUT_OFF..=Verdict::NO_PATH,
        place,
    }) = desk.load(&bytes.concat())
    else {
        return None;
    };
    let mut offset = 0;
    let field = bytes.iter().position(|bytes| {
        let here = offset == usize::from(place);
        offset += bytes.len();
        here
    });
    field.map(|field| (number, field))
}

impl<'a> Sifted<'a> {
    pub fn plan(&self) -> Plan<'a> {
        Plan::given(&self.kept)
    }

    /// Whether a field with this tag was left out, or one that may have hidden such a field.
    fn lacks(&self, tag: u8) -> bool {
        let hides = |faulty: &Faulty| faulty.field.item().is_none();
        let lacks = |faulty: &Faulty| faulty.field.tag() == tag || hides(faulty);
        self.faulty.iter().any(lacks)
    }
}

/// Whether more is looked for in a file that is refused: not in one that is too long, or looks like something else.
pub fn is_plan(source: &Source, first: &Fault) -> bool {
    first.number() != Verdict::FILE_TOO_LONG && hint(source).is_none()
}

/// All faults behind the first, which the verdict names; nothing where it is the only one.
pub fn further(source: &Source, sifted: &Sifted, first: &Fault) -> Vec<String> {
    if !is_plan(source, first) {
        return Vec::new();
    }
    let plan = sifted.plan();
    let mut lines = faulty_fields(source, sifted, first);
    let overruns = overruns(&plan);
    if overruns.len() > usize::from(first.number() == Verdict::OVERRUN) {
        lines.push("all overruns:".to_string());
        lines.extend(listed(overruns.iter().map(|found| overrun(source, found))));
    }
    let clashes = clashes(&plan);
    let places = |clash: &Clash| clash.slots.count_ones() * clash.links.count_ones();
    if clashes.iter().map(places).sum::<u32>() > u32::from(first.number() == Verdict::CLASH) {
        lines.push("all clashes:".to_string());
        lines.extend(listed(clashes.iter().map(|found| clash(source, found))));
    }
    lines
}

/// The fields that are at fault behind the first, and what is missing.
fn faulty_fields(source: &Source, sifted: &Sifted, first: &Fault) -> Vec<String> {
    let plan = sifted.plan();
    let mut faults: Vec<_> = sifted
        .faulty
        .iter()
        .skip(1)
        .map(|faulty| field(source, faulty))
        .collect();
    for (number, missing, tag) in [
        (Verdict::NO_INTERVALS, plan.timing.is_none(), 5),
        (Verdict::NO_ENTRY, plan.entries.is_empty(), 4),
    ] {
        if missing && !sifted.lacks(tag) && first.number() != number {
            faults.push(vec![format!(
                "  {number}: {}",
                words::verdict(number).means
            )]);
        }
    }
    if faults.is_empty() {
        return Vec::new();
    }
    let head = if sifted.faulty.is_empty() {
        "further faults:"
    } else {
        "further faults, with the fields at fault left out:"
    };
    let mut lines = vec![head.to_string()];
    lines.extend(listed(faults.into_iter()));
    lines
}

/// So many of them as are listed, and how many more there are.
fn listed(faults: impl ExactSizeIterator<Item = Vec<String>>) -> Vec<String> {
    let more = faults.len().saturating_sub(MOST);
    let mut lines: Vec<_> = faults.take(MOST).flatten().collect();
    if more > 0 {
        lines.push(format!("  and {more} more"));
    }
    lines
}

fn field(source: &Source, faulty: &Faulty) -> Vec<String> {
    let Faulty { number, field, .. } = faulty;
    let line = source.line_at(field.offset).unwrap_or_else(|| {
        let item = field.item().map(|item| item.to_string());
        let item = item.unwrap_or_else(|| hex(field.bytes));
        format!("offset {}: {}", field.offset, shortened(&item, 100))
    });
    let mut lines = vec![format!("  {number}: {line}")];
    lines.extend(faulty.reasons.iter().map(|reason| format!("    {reason}")));
    lines
}

/// An entry by its slot and its place in the text or file.
fn entry(source: &Source, entry: &Entry) -> String {
    format!("slot {} ({})", entry.slot, source.place(entry.offset))
}

fn overrun(source: &Source, overrun: &Overrun) -> Vec<String> {
    let Overrun { entry: runs, next } = overrun;
    let initiator = runs.initiator;
    vec![format!(
        "  initiator {initiator}: the entry at {} covers {}, the next begins at {}",
        entry(source, runs),
        runs.slots(),
        entry(source, next)
    )]
}

fn clash(source: &Source, clash: &Clash) -> Vec<String> {
    let links = members(clash.links);
    let plural = if links.len() == 1 { "" } else { "s" };
    let [one, other] = clash.entries.map(|found| {
        let place = entry(source, &found);
        format!("initiator {} at {place}", found.initiator)
    });
    vec![format!(
        "  {}, link{plural} {}: {one}, {other}",
        slots_in_words(clash.slots),
        numbers(&links)
    )]
}
