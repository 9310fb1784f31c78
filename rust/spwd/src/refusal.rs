//! Refusals of events, of the next turn and of writing out.

use crate::words;
use core::fmt;
use core::num::NonZeroU8;

/// Why an event, the next turn or writing out was refused: 20 to 30, and 33. A refusal changes nothing.
#[must_use]
#[derive(Clone, Copy, Debug, PartialEq, Eq, PartialOrd, Ord, Hash)]
pub struct Refusal(NonZeroU8);

impl Refusal {
    /// 20, every event, the next turn and writing out: there is no plan.
    pub const NO_PLAN: Self = Self::of(20);
    /// 21, time-code: the byte's upper two bits are not 0.
    pub const UPPER_BITS: Self = Self::of(21);
    /// 22, request, reply and next turn: not an initiator of the plan.
    pub const NO_INITIATOR: Self = Self::of(22);
    /// 23, request: the kind is neither [`READ`](crate::READ) nor [`WRITE`](crate::WRITE).
    pub const UNKNOWN_KIND: Self = Self::of(23);
    /// 24, request and next turn: length over [`LENGTH_MOST`](crate::LENGTH_MOST).
    pub const LENGTH_OVER_MOST: Self = Self::of(24);
    /// 25, request and next turn: no entry of this initiator permits the target with this length, which is 256 bytes for each slot of its
    /// span, or what the plan's times allow.
    pub const NOT_PERMITTED: Self = Self::of(25);
    /// 26, request: [`WAITING_MOST`](crate::WAITING_MOST) are waiting already.
    pub const LINE_FULL: Self = Self::of(26);
    /// 27, reply: nothing is live.
    pub const NOTHING_LIVE: Self = Self::of(27);
    /// 28, reply: the number is not the live transaction's.
    pub const OTHER_TRANSACTION: Self = Self::of(28);
    /// 29, time-code: the record buffer is under [`RECORDS_ROOM`](crate::RECORDS_ROOM).
    pub const SMALL_BUFFER: Self = Self::of(29);
    /// 30, writing out: the room is under the size needed.
    pub const SMALL_ROOM: Self = Self::of(30);
    /// 33, next turn: the slot is not below [`SLOTS`](crate::SLOTS).
    pub const SLOT_OVER_MOST: Self = Self::of(33);

    const fn of(number: u8) -> Self {
        match NonZeroU8::new(number) {
            Some(number) => Self(number),
            None => panic!("a refusal has a number"),
        }
    }

    /// Document 01's number.
    pub const fn number(self) -> u8 {
        self.0.get()
    }

    /// What it means, in the words of the card.
    pub fn words(self) -> &'static str {
        words::refusal(self.number()).means
    }

    /// What to do about it, in the words of the card.
    pub fn to_do(self) -> &'static str {
        words::refusal(self.number()).to_do
    }
}

impl fmt::Display for Refusal {
    fn fmt(&self, formatter: &mut fmt::Formatter<'_>) -> fmt::Result {
        write!(formatter, "refused {}", self.0)
    }
}

impl core::error::Error for Refusal {}

/// What an answer's number says: one below 256.
#[inline]
pub(crate) fn taken(number: u32) -> Result<(), Refusal> {
    NonZeroU8::new(number as u8).map_or(Ok(()), |number| Err(Refusal(number)))
}
