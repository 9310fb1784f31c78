//! The records of a time-code.

use crate::words;
use crate::RECORD_SIZE;
use core::slice;

/// One record. Kinds 1 to 3 fill kind and value, the rest is 0.
#[derive(Clone, Copy, Debug, PartialEq, Eq)]
pub struct Record {
    /// One of the constants here.
    pub kind: u8,
    /// Whose transaction.
    pub initiator: u8,
    /// To whom.
    pub target: u8,
    /// The time-code's value: the slot.
    pub value: u8,
    /// The transaction's number.
    pub transaction: u16,
    /// Its data bytes.
    pub length: u16,
}

impl Record {
    /// The time-code came early.
    pub const EARLY: u8 = 1;
    /// The time-code came late.
    pub const LATE: u8 = 2;
    /// The time-code is not the next one; nothing starts.
    pub const OUT_OF_SEQUENCE: u8 = 3;
    /// No reply came within the span; the transaction is over.
    pub const TRANSACTION_LATE: u8 = 4;
    /// The transaction started.
    pub const STARTED: u8 = 5;
    /// An earlier transaction stands in the way of a start; with an accepted plan this does not occur.
    pub const STILL_LIVE: u8 = 6;

    /// The record of these bytes.
    pub const fn from_bytes(bytes: [u8; RECORD_SIZE]) -> Self {
        let [kind, initiator, target, value, transaction @ .., length_high, length_low] = bytes;
        Self {
            kind,
            initiator,
            target,
            value,
            transaction: u16::from_be_bytes(transaction),
            length: u16::from_be_bytes([length_high, length_low]),
        }
    }

    /// The bytes of this record.
    pub const fn to_bytes(self) -> [u8; RECORD_SIZE] {
        let [transaction_high, transaction_low] = self.transaction.to_be_bytes();
        let [length_high, length_low] = self.length.to_be_bytes();
        [
            self.kind,
            self.initiator,
            self.target,
            self.value,
            transaction_high,
            transaction_low,
            length_high,
            length_low,
        ]
    }

    /// What a record of its kind says, in the words of the card.
    pub fn words(&self) -> &'static str {
        words::record(self.kind).means
    }

    /// What to do about it, in the words of the card.
    pub fn to_do(&self) -> &'static str {
        words::record(self.kind).to_do
    }
}

/// The first `count` records of a buffer, as [`Spwd::time_code`](crate::Spwd::time_code) left it; fewer if it holds fewer.
pub fn records(buffer: &[u8], count: u8) -> Records<'_> {
    let count = (buffer.len() / RECORD_SIZE).min(count.into());
    Records(buffer[..count * RECORD_SIZE].chunks_exact(RECORD_SIZE))
}

/// Goes through the records of a buffer; [`records`] gives it.
#[derive(Clone, Debug)]
pub struct Records<'a>(slice::ChunksExact<'a, u8>);

impl Iterator for Records<'_> {
    type Item = Record;

    fn next(&mut self) -> Option<Record> {
        let bytes = self.0.next()?.try_into().ok()?;
        Some(Record::from_bytes(bytes))
    }

    fn size_hint(&self) -> (usize, Option<usize>) {
        self.0.size_hint()
    }
}

impl ExactSizeIterator for Records<'_> {}
