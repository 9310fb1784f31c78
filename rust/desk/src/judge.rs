//! The verdict on a file: the proved box's, and how it is said.

use crate::words::{self, Advice};
use spwd::{Counts, Fault, Spwd, Verdict, WRITTEN_MOST};

/// A verdict, the box then, and the plan as it holds it: nothing if it was refused.
pub struct Judged {
    pub verdict: Verdict,
    pub desk: Spwd,
    pub held: Vec<u8>,
}

/// Loads a file into a box of its own.
pub fn judge(file: &[u8]) -> Judged {
    let mut desk = Spwd::new();
    let verdict = desk.load(file).into();
    let held = held(&desk);
    Judged {
        verdict,
        desk,
        held,
    }
}

/// The plan that a box holds, as a file; nothing if it holds none.
pub fn held(desk: &Spwd) -> Vec<u8> {
    let mut held = vec![0; WRITTEN_MOST];
    let size = desk.write_out(&mut held).unwrap_or(0);
    held.truncate(size);
    held
}

/// What follows a verdict's number, in words; nothing where it says nothing.
pub fn place(verdict: &Verdict) -> Option<String> {
    match verdict {
        Verdict::Accepted(Counts {
            devices,
            links,
            paths,
            entries,
        }) => Some(format!(
            "devices {devices}, links {links}, paths {paths}, entries {entries}"
        )),
        Verdict::Refused(fault) => fault_place(fault),
    }
}

fn fault_place(fault: &Fault) -> Option<String> {
    match fault {
        Fault::File {
            number: Verdict::FILE_TOO_LONG,
            ..
        } => None,
        Fault::File {
            number: Verdict::NO_INTERVALS | Verdict::NO_ENTRY,
            place,
        } => Some(format!("file length {place}")),
        Fault::File { place, .. } => Some(format!("offset {place}")),
        Fault::Overrun { initiator, slot } => Some(format!("initiator {initiator}, slot {slot}")),
        Fault::Clash {
            slot,
            smaller,
            greater,
            link,
        } => Some(format!(
            "slot {slot}, initiators {smaller} and {greater}, link {link}"
        )),
    }
}

/// What the verdict on an accepted plan means where nobody's box was touched.
const TAKEN: &str = "a box takes this plan";

/// The verdict as the card says it, number first.
pub fn in_words(verdict: &Verdict) -> Vec<String> {
    let row = words::verdict(verdict.number());
    let means = if verdict.is_accepted() {
        TAKEN
    } else {
        row.means
    };
    let mut lines = vec![verdict.to_string(), format!("{}: {means}", row.number)];
    lines.extend(place(verdict).map(|place| format!("    {place}")));
    lines.push(row.advice());
    lines
}
