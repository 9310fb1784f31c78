//! The watchdog's five numbers.

/// The five numbers that belong to the caller: each call uses them as they stand in the box and updates them there.
#[repr(C)]
#[derive(Clone, Copy, Debug, Default, PartialEq, Eq)]
pub struct Watchdog {
    /// Clock of the last time-code.
    pub last: u32,
    /// Whether one was seen since the load: 0 is no, all else is yes.
    pub seen: u32,
    /// Whether a reading has reported the present lateness: 0 is no, all else is yes.
    pub reported: u32,
    /// Least interval between time-codes; 0 means never early.
    pub least: u32,
    /// Greatest interval between time-codes.
    pub greatest: u32,
}

impl From<[u32; 5]> for Watchdog {
    /// From the numbers in document 01's order.
    fn from([last, seen, reported, least, greatest]: [u32; 5]) -> Self {
        Self {
            last,
            seen,
            reported,
            least,
            greatest,
        }
    }
}

impl From<Watchdog> for [u32; 5] {
    /// In document 01's order.
    fn from(five: Watchdog) -> Self {
        [
            five.last,
            five.seen,
            five.reported,
            five.least,
            five.greatest,
        ]
    }
}
