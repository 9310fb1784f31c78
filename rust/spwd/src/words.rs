//! The words of `docs/CARD.md` for every number that the box says: what it means, and what to do about it.
//!
//! [`Verdict::words`](crate::Verdict::words), [`Fault::words`](crate::Fault::words), [`Refusal::words`](crate::Refusal::words) and
//! [`Record::words`](crate::Record::words) say them of one answer.

pub use crate::card::{RECORDS, REFUSALS, UNKNOWN, VERDICTS};

/// A row of the card.
#[derive(Clone, Copy, Debug, PartialEq, Eq)]
pub struct Row {
    /// The number of a verdict or of a refusal, or the kind of a record.
    pub number: u8,
    /// Of a verdict what follows its number, of a refusal the events and questions that get it; nothing of a record.
    pub about: &'static str,
    /// What it means.
    pub means: &'static str,
    /// What to do about it.
    pub to_do: &'static str,
}

/// The row of a verdict's number; [`UNKNOWN`] with this number if the card has none.
pub fn verdict(number: u8) -> Row {
    find(&VERDICTS, number)
}

/// The row of a refusal's number; [`UNKNOWN`] with this number if the card has none.
pub fn refusal(number: u8) -> Row {
    find(&REFUSALS, number)
}

/// The row of a record's kind; [`UNKNOWN`] with this number if the card has none.
pub fn record(kind: u8) -> Row {
    find(&RECORDS, kind)
}

fn find(rows: &[Row], number: u8) -> Row {
    let found = rows.iter().find(|row| row.number == number);
    found.copied().unwrap_or(Row { number, ..UNKNOWN })
}
