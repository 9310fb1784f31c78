//! How many requests wait in each line, told from what the box answers: where a request stands alone, its next turn is where it starts.

use spwd::{Record, Records};
use std::collections::BTreeMap;

/// What was seen since the last load.
#[derive(Default)]
pub struct Waiting {
    /// Of the last accepted time-code, in sequence or not.
    slot: Option<u8>,
    /// By initiator.
    lines: BTreeMap<u8, u64>,
}

impl Waiting {
    /// A time-code was accepted and wrote these records.
    pub fn time_code(&mut self, slot: u8, records: Records) {
        self.slot = Some(slot);
        for started in records.filter(|record| record.kind == Record::STARTED) {
            let line = self.lines.entry(started.initiator).or_default();
            *line = line.saturating_sub(1);
        }
    }

    /// A request was accepted. Gives the slot that its start is counted from; nothing if others stand before it in its line, or if no
    /// time-code has said yet which slot it is.
    pub fn request(&mut self, initiator: u8) -> Option<u8> {
        let line = self.lines.entry(initiator).or_default();
        *line += 1;
        self.slot.filter(|_| *line == 1)
    }
}
