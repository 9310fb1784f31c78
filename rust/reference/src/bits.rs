//! Sets of numbers 0 to 63, and of initiator rows 0 to 7, as bits of a word.

/// The set holding `number` alone; only its lower six bits count.
#[inline(always)]
pub(crate) const fn bit(number: u8) -> u64 {
    1 << (number & 63)
}

#[inline(always)]
pub(crate) const fn holds(set: u64, number: u8) -> bool {
    number < 64 && set & bit(number) != 0
}

/// The members of a set, rising.
pub(crate) struct Members(pub u64);

impl Iterator for Members {
    type Item = u8;

    #[inline(always)]
    fn next(&mut self) -> Option<u8> {
        if self.0 == 0 {
            return None;
        }
        let least = self.0.trailing_zeros() as u8;
        self.0 &= self.0 - 1;
        Some(least)
    }
}

/// The rows in a set of initiator rows, rising.
#[inline(always)]
pub(crate) fn rows(set: u8) -> impl Iterator<Item = usize> {
    Members(u64::from(set)).map(|row| usize::from(row & 7))
}
