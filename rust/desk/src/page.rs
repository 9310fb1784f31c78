//! A plan on a page: the verdict in words, and what is behind it.

use crate::clash::{clash, overrun};
use crate::fault::field_in_words;
use crate::fingerprint::fingerprint;
use crate::further::{further, is_plan, sifted, Sifted};
use crate::grid::grid;
use crate::judge::{in_words, judge, Judged};
use crate::layout::wrapped;
use crate::names::Names;
use crate::network::network;
use crate::no_entry::no_entry;
use crate::plan::Plan;
use crate::source::Source;
use crate::taken::hint;
use crate::times::never;
use spwd::{Fault, Verdict};

/// The lines of a page, and whether the plan was accepted.
pub fn page(source: &Source) -> (Vec<String>, bool) {
    let judged = judge(source.bytes());
    let mut lines = in_words(&judged.verdict);
    lines.extend(hint(source).map(|hint| format!("    {hint}")));
    let parts = match &judged.verdict {
        Verdict::Accepted(_) => {
            lines.push(format!("    fingerprint {}", fingerprint(&judged.held)));
            vec![held(&judged, &source.compiled.names)]
        }
        Verdict::Refused(fault) => refused(source, fault),
    };
    for part in parts.into_iter().filter(|part| !part.is_empty()) {
        lines.push(String::new());
        lines.extend(part);
    }
    (lines, judged.verdict.is_accepted())
}

/// What a refusal is about, what else is at fault, and the table of the entries that are not.
fn refused(source: &Source, fault: &Fault) -> Vec<Vec<String>> {
    let sifted = sifted(source);
    let further = further(source, &sifted, fault);
    let table = if is_plan(source, fault) {
        table(&sifted)
    } else {
        Vec::new()
    };
    vec![behind(source, fault), further, table]
}

fn table(sifted: &Sifted) -> Vec<String> {
    let plan = sifted.plan();
    if plan.entries.is_empty() {
        return Vec::new();
    }
    let mut lines = Vec::new();
    if !sifted.faulty.is_empty() {
        lines.push("what is left without the fields at fault:".to_string());
    }
    lines.extend(grid(&plan));
    lines
}

/// The plan as the box holds it.
fn held(judged: &Judged, names: &Names) -> Vec<String> {
    let plan = Plan::of(&judged.held);
    let mut lines = network(&plan, names);
    lines.push(String::new());
    lines.extend(grid(&plan));
    lines.extend(never_permitted(&plan));
    lines
}

/// Targets that stand in the table and can never be reached.
fn never_permitted(plan: &Plan) -> Vec<String> {
    let never = never(plan);
    if never.is_empty() {
        return Vec::new();
    }
    let head = "never permitted: by the slot times not even 0 bytes fit these spans";
    let mut lines = vec![String::new(), head.to_string()];
    for never in never {
        let (initiator, target, span) = (never.initiator, never.target, never.span);
        let slots: Vec<_> = never.slots.iter().map(u8::to_string).collect();
        let plural = if slots.len() == 1 { "" } else { "s" };
        let head = format!("  {initiator} to {target}, span {span}, at slot{plural}");
        lines.extend(wrapped(&head, &slots));
    }
    lines
}

/// What a refusal is about.
pub fn behind(source: &Source, fault: &Fault) -> Vec<String> {
    let plan = Plan::of(source.bytes());
    match *fault {
        Fault::File {
            number: number @ Verdict::CUT_OFF..=Verdict::NO_PATH,
            place,
        } => field_in_words(source, number, place.into()),
        Fault::File {
            number: Verdict::NO_ENTRY,
            ..
        } => no_entry(source, &plan),
        Fault::File { .. } => Vec::new(),
        Fault::Overrun { initiator, slot } => overrun(source, &plan, initiator, slot),
        Fault::Clash {
            slot,
            smaller,
            greater,
            link,
        } => clash(source, &plan, slot, [smaller, greater], link),
    }
}
