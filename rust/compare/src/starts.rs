//! Starts held against the turns that were named for them. A request that joins an empty line is its oldest until it starts. So it starts
//! at the first time-code in sequence where an entry stands that permits it, as long as none comes out of sequence.

use crate::both::{same, Outcome};
use spwd::Record;

/// A request that is to start after so many time-codes.
struct Named {
    initiator: u8,
    transaction: u16,
    count: u8,
    left: u8,
}

/// Follows the lines of a box under one plan.
#[derive(Default)]
pub struct Starts {
    /// The value of the last time-code.
    last: Option<u8>,
    /// Initiator and number of each request in a line.
    waiting: Vec<(u8, u16)>,
    named: Vec<Named>,
}

impl Starts {
    /// The value of the last time-code, if one was taken.
    pub fn last(&self) -> Option<u8> {
        self.last
    }

    /// Whether some request is on the way to a turn that was named.
    pub fn waits(&self) -> bool {
        !self.named.is_empty()
    }

    /// A request joins its line; its turn has this count after the last time-code.
    pub fn join(&mut self, initiator: u8, transaction: u16, count: u8) {
        let first = self.waiting.iter().all(|&(other, _)| other != initiator);
        self.waiting.push((initiator, transaction));
        if first && self.last.is_some() {
            self.named.push(Named {
                initiator,
                transaction,
                count,
                left: count,
            });
        }
    }

    /// A time-code was taken. The counts of those that started at their turn; one that did so before, or has not now, is a difference.
    pub fn time_code(&mut self, value: u8, records: &[Record]) -> Outcome<Vec<u8>> {
        self.last = Some(value);
        if records
            .iter()
            .any(|one| one.kind == Record::OUT_OF_SEQUENCE)
        {
            self.named.clear();
            return Ok(Vec::new());
        }
        let started = records.iter().filter(|one| one.kind == Record::STARTED);
        let started = started.map(|one| (one.initiator, one.transaction));
        let started: Vec<(u8, u16)> = started.collect();
        for one in &mut self.named {
            one.left -= 1;
            let starts = started.contains(&(one.initiator, one.transaction));
            same("started at the turn that was named", starts, one.left == 0)?;
        }
        self.waiting.retain(|one| !started.contains(one));
        let kept = self.named.iter().filter(|one| one.left == 0);
        let kept = kept.map(|one| one.count).collect();
        self.named.retain(|one| one.left != 0);
        Ok(kept)
    }
}
