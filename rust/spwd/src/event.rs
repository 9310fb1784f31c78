//! What goes into a step and what it answers.

use crate::refusal::Refusal;

/// The kind of a request that reads.
pub const READ: u8 = 0;
/// The kind of a request that writes.
pub const WRITE: u8 = 1;

/// The class of a reply's status that says success.
pub const SUCCESS: u8 = 0;
/// The class of one that the RMAP standard names as an error.
pub const ERROR: u8 = 1;
/// The class of one that it reserves.
pub const RESERVED: u8 = 2;

/// What can happen to a box under a plan.
#[derive(Clone, Copy, Debug, PartialEq, Eq)]
pub enum Event {
    /// A time-code.
    TimeCode {
        /// Its byte; the value is the lower six bits.
        byte: u8,
        /// The clock at its arrival.
        clock: u32,
    },
    /// A request of a transaction.
    Request {
        /// Who asks.
        initiator: u8,
        /// Of whom.
        target: u8,
        /// [`READ`] or [`WRITE`].
        kind: u8,
        /// How many data bytes.
        length: u16,
    },
    /// A reply to a transaction.
    Reply {
        /// Whose transaction it ends.
        initiator: u8,
        /// The transaction's number.
        transaction: u16,
        /// The status byte of the reply.
        status: u8,
    },
    /// A clock reading.
    Reading {
        /// The clock.
        clock: u32,
    },
}

/// What an event answers that is taken.
#[must_use]
#[derive(Clone, Copy, Debug, PartialEq, Eq)]
pub enum Answer {
    /// A time-code: how many records it wrote.
    Recorded(u8),
    /// A request: its transaction number.
    Joined(u16),
    /// A reply: the transaction that it ended.
    Ended(Ended),
    /// A clock reading: whether it reports lateness.
    Told(bool),
}

/// The transaction that a reply ended.
#[derive(Clone, Copy, Debug, PartialEq, Eq)]
pub struct Ended {
    /// Its target.
    pub target: u8,
    /// Its length.
    pub length: u16,
    /// The status of the reply.
    pub status: u8,
    /// The class of that: [`SUCCESS`], [`ERROR`] or [`RESERVED`].
    pub status_class: u8,
}

/// Document 01's eight numbers of an answer: 0 and its own, or a refusal's; all else 0.
pub(crate) fn eight(answer: Result<Answer, Refusal>) -> [u32; 8] {
    let mut numbers = [0; 8];
    match answer {
        Err(refusal) => numbers[0] = refusal.number().into(),
        Ok(Answer::Recorded(count)) => numbers[1] = count.into(),
        Ok(Answer::Joined(transaction)) => numbers[2] = transaction.into(),
        Ok(Answer::Ended(ended)) => {
            numbers[3] = ended.target.into();
            numbers[4] = ended.length.into();
            numbers[5] = ended.status.into();
            numbers[6] = ended.status_class.into();
        }
        Ok(Answer::Told(late)) => numbers[7] = late.into(),
    }
    numbers
}
