//! Plan memory.

use crate::raw;
use crate::refusal::{taken, Refusal};
use core::fmt;

/// A plan as the box keeps it, or none. Plans that differ only in the order of their files are equal.
///
/// It stands in every [`Spwd`](crate::Spwd); one beside the box is room for [`Spwd::holds`](crate::Spwd::holds).
#[derive(Clone, PartialEq, Eq)]
pub struct Plan {
    pub(crate) sets: [u64; 3],
    pub(crate) ends: [u8; 128],
    pub(crate) rows: [u8; 8],
    pub(crate) reach: [u64; 8],
    /// 128 rows of 11 bytes for the paths, and as many for the replies.
    pub(crate) paths: [u8; 2816],
    pub(crate) spans: [u8; 512],
    /// 512 words for the targets of the entries; 512 and 128 for where turns are, slots by target and by span.
    pub(crate) aims: [u64; 1152],
    pub(crate) numbers: [u32; 524],
}

impl Plan {
    /// No plan.
    pub const fn new() -> Self {
        Self {
            sets: [0; 3],
            ends: [0; 128],
            rows: [0; 8],
            reach: [0; 8],
            paths: [0; 2816],
            spans: [0; 512],
            aims: [0; 1152],
            numbers: [0; 524],
        }
    }

    /// How many slots after this one the next turn is: the next slot at which an entry of the initiator stands that permits the target with
    /// this length. 1 is the slot after it, [`SLOTS`](crate::SLOTS) that slot again.
    ///
    /// # Errors
    /// [`Refusal::NO_PLAN`], [`Refusal::NO_INITIATOR`], [`Refusal::LENGTH_OVER_MOST`], [`Refusal::NOT_PERMITTED`],
    /// [`Refusal::SLOT_OVER_MOST`].
    #[inline]
    pub fn next(&self, initiator: u8, target: u8, length: u16, slot: u8) -> Result<u8, Refusal> {
        let [number, count] = raw::next(self, initiator, target, length, slot);
        taken(number)?;
        Ok(count as u8)
    }

    /// Writes the plan out as a file, in canonical order, and gives its size, at most [`WRITTEN_MOST`](crate::WRITTEN_MOST).
    /// Room beyond it keeps its bytes; on a refusal all of it does.
    ///
    /// # Errors
    /// [`Refusal::NO_PLAN`], [`Refusal::SMALL_ROOM`].
    pub fn write_out(&self, out: &mut [u8]) -> Result<usize, Refusal> {
        let [number, size] = raw::write_out(self, out);
        taken(number)?;
        Ok(size as usize)
    }

    /// Whether there is a plan: without one, writing out is refused for that, and else for its room.
    pub(crate) fn is_given(&self) -> bool {
        self.write_out(&mut []) != Err(Refusal::NO_PLAN)
    }
}

impl fmt::Debug for Plan {
    /// Whether there is a plan; not its arrays.
    fn fmt(&self, formatter: &mut fmt::Formatter<'_>) -> fmt::Result {
        let mut shown = formatter.debug_struct("Plan");
        shown.field("given", &self.is_given());
        shown.finish_non_exhaustive()
    }
}

impl Default for Plan {
    fn default() -> Self {
        Self::new()
    }
}
