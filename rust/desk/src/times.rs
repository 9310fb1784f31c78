//! What a plan's times permit. Every time is that of the proved sheet; a largest length is searched for with it.

use crate::fields::{Entry, Path, Times};
use crate::plan::Plan;
use crate::turns::Wanted;
use crate::ways::Routers;
use crate::words;
use spwd::{sheet2, LENGTH_MOST};

/// Data bytes for each slot of a span, where a plan has no times.
const A_SLOT: u16 = 256;

impl Times {
    /// The time of a transaction in nanoseconds; nothing where a number is out of range, as none of an accepted plan is.
    pub fn time(&self, routers: Routers, length: u16) -> Option<u32> {
        let Routers { command, reply } = routers;
        let sheet = sheet2(command, reply, self.rate, length, self.latencies);
        sheet.ok().map(|sheet| sheet.total)
    }

    /// How long a span is.
    pub fn time_of(&self, span: u8) -> u64 {
        u64::from(span) * u64::from(self.slot_length)
    }

    fn fits(&self, routers: Routers, length: u16, span: u8) -> bool {
        let time = self.time(routers, length);
        time.is_some_and(|time| u64::from(time) <= self.time_of(span))
    }

    /// The largest length whose time fits a span; nothing where not even length 0 does.
    pub fn largest(&self, routers: Routers, span: u8) -> Option<u16> {
        // How many lengths fit: a longer one never takes less time.
        let (mut least, mut most) = (0, LENGTH_MOST + 1);
        while least < most {
            let middle = (least + most) / 2;
            if self.fits(routers, middle, span) {
                least = middle + 1;
            } else {
                most = middle;
            }
        }
        least.checked_sub(1)
    }
}

/// The least span that permits a request to a target that its initiator has a path to; nothing where 16 slots do not.
pub fn least_span(plan: &Plan, wanted: &Wanted) -> Option<u8> {
    let path = plan.path(wanted.initiator, wanted.target)?;
    let fits = |span: &u8| match plan.times {
        Some(times) => times.fits(plan.routers(&path), wanted.length, *span),
        None => wanted.length <= A_SLOT * u16::from(*span),
    };
    (1..=16).find(fits)
}

/// A target that entries have and never permit, since not even length 0 fits their span.
#[derive(Debug, PartialEq, Eq)]
pub struct Never {
    pub initiator: u8,
    pub target: u8,
    pub span: u8,
    /// Where the entries stand.
    pub slots: Vec<u8>,
}

/// All such targets of a plan, by initiator, target and span.
pub fn never(plan: &Plan) -> Vec<Never> {
    let Some(times) = plan.times else {
        return Vec::new();
    };
    let mut found = Vec::new();
    for path in &plan.paths {
        for span in spans(plan, path) {
            if times.largest(plan.routers(path), span).is_none() {
                let entries = entries_over(plan, path);
                let slots = entries.filter(|entry| entry.span == span);
                found.push(Never {
                    initiator: path.initiator,
                    target: path.target,
                    span,
                    slots: slots.map(|entry| entry.slot).collect(),
                });
            }
        }
    }
    found
}

/// The entries of a path's initiator that have its target.
fn entries_over<'a>(plan: &'a Plan<'a>, path: &Path) -> impl Iterator<Item = &'a Entry<'a>> {
    let target = path.target;
    plan.entries_of(path.initiator)
        .filter(move |entry| entry.targets.contains(&target))
}

/// The spans of these entries, rising.
pub fn spans(plan: &Plan, path: &Path) -> Vec<u8> {
    let mut spans: Vec<_> = entries_over(plan, path).map(|entry| entry.span).collect();
    spans.sort_unstable();
    spans.dedup();
    spans
}

/// The entry and target that need the longest slots to be permitted 256 bytes for each slot of the span.
#[derive(Debug, PartialEq, Eq)]
pub struct Longest<'a> {
    pub entry: Entry<'a>,
    pub target: u8,
    pub length: u16,
    /// The time of this length.
    pub time: u32,
    pub slot_length: u32,
}

/// With a slot length of this every entry permits that much; nothing if there is no entry.
pub fn longest<'a>(plan: &Plan<'a>, times: &Times) -> Option<Longest<'a>> {
    let mut longest: Option<Longest> = None;
    for &entry in &plan.entries {
        for &target in entry.targets {
            let path = plan.path(entry.initiator, target)?;
            let length = A_SLOT * u16::from(entry.span);
            let time = times.time(plan.routers(&path), length)?;
            let slot_length = time.div_ceil(entry.span.into());
            if longest
                .as_ref()
                .is_none_or(|longest| longest.slot_length < slot_length)
            {
                longest = Some(Longest {
                    entry,
                    target,
                    length,
                    time,
                    slot_length,
                });
            }
        }
    }
    longest
}

/// Why no entry permits a request, where it is for the plan's times: some entry has the target.
pub fn over_time(plan: &Plan, wanted: &Wanted) -> Option<String> {
    let Wanted {
        initiator,
        target,
        length,
    } = *wanted;
    let times = plan.times?;
    let path = plan.path(initiator, target)?;
    let span = times.time_of(*spans(plan, &path).last()?);
    let routers = plan.routers(&path);
    let time = times.time(routers, length)?;
    let (bytes, routers) = (words::bytes(length), words::routers(routers));
    Some(format!(
        "by the plan's slot times: {bytes} over {routers}: {time} ns; longest span to target {target}: {span} ns"
    ))
}
