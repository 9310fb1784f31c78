//! The five numbers of the watchdog, which belong to the caller.

use crate::run::{EARLY, LATE};

/// Of `seen` and `reported`, 0 is no and all else is yes.
#[derive(Clone, Copy, Debug, Default, PartialEq, Eq)]
pub struct Watchdog {
    /// Clock of the last time-code.
    pub last: u32,
    pub seen: u32,
    pub reported: u32,
    /// Least interval between time-codes; 0 means never early.
    pub least: u32,
    /// Greatest interval between time-codes.
    pub greatest: u32,
}

impl Watchdog {
    pub const fn new() -> Self {
        Self::with_intervals(0, 0)
    }

    pub(crate) const fn with_intervals(least: u32, greatest: u32) -> Self {
        Self {
            last: 0,
            seen: 0,
            reported: 0,
            least,
            greatest,
        }
    }

    /// Takes a clock reading and says whether it reports lateness.
    #[inline]
    pub(crate) fn reading(&mut self, clock: u32) -> bool {
        let late = self.seen != 0 && self.reported == 0 && self.elapsed(clock) > self.greatest;
        if late {
            self.reported = 1;
        }
        late
    }

    /// Takes the clock of a time-code and gives the kind of its watchdog record, if it has one.
    #[inline]
    pub(crate) fn time_code(&mut self, clock: u32) -> Option<u8> {
        let kind = self.kind(self.elapsed(clock));
        self.last = clock;
        self.seen = 1;
        self.reported = 0;
        kind
    }

    #[inline]
    fn kind(&self, elapsed: u32) -> Option<u8> {
        if self.seen == 0 {
            None
        } else if elapsed < self.least {
            Some(EARLY)
        } else if elapsed > self.greatest && self.reported == 0 {
            Some(LATE)
        } else {
            None
        }
    }

    #[inline]
    fn elapsed(&self, clock: u32) -> u32 {
        clock.wrapping_sub(self.last)
    }
}
