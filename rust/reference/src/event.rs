//! What goes into a step and what it answers.

#[derive(Clone, Copy, Debug, PartialEq, Eq)]
pub enum Event {
    TimeCode {
        byte: u8,
        clock: u32,
    },
    Request {
        initiator: u8,
        target: u8,
        kind: u8,
        length: u16,
    },
    Reply {
        initiator: u8,
        number: u16,
        status: u8,
    },
    Reading {
        clock: u32,
    },
}

#[derive(Clone, Copy, Debug, PartialEq, Eq)]
#[repr(u8)]
pub enum Refusal {
    NoPlan = 20,
    UpperBits = 21,
    NoInitiator = 22,
    Kind = 23,
    Length = 24,
    NotPermitted = 25,
    LineFull = 26,
    NothingLive = 27,
    OtherNumber = 28,
    SmallBuffer = 29,
    SmallRoom = 30,
    Slot = 33,
}

#[derive(Clone, Copy, Debug, PartialEq, Eq)]
pub enum Answer {
    Refused(Refusal),
    /// A time-code: the number of records written.
    Records {
        count: u8,
    },
    /// A request: its transaction number.
    Taken {
        number: u16,
    },
    /// A reply: the transaction it ended.
    Ended {
        target: u8,
        length: u16,
        status: u8,
        class: u8,
    },
    /// A clock reading: whether it reports lateness.
    Reading {
        late: bool,
    },
}

impl Answer {
    /// 0, or the number of the refusal.
    pub const fn number(&self) -> u8 {
        match self {
            Self::Refused(refusal) => *refusal as u8,
            _ => 0,
        }
    }
}

/// 0 success, 1 error, 2 reserved.
#[inline]
pub(crate) const fn class(status: u8) -> u8 {
    match status {
        0 => 0,
        1..=7 | 9..=12 => 1,
        8 | 13..=255 => 2,
    }
}
