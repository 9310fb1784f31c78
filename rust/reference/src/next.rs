//! The next turn: the slot at which an initiator may next start a request. An entry is a turn at its
//! own slot alone, not at those that it covers after it.

use crate::bits::{bit, holds, Members};
use crate::event::Refusal;
use crate::few;
use crate::plan::{Plan, Shape, Way, SLOT_BYTES, SPANS};
use crate::sheet::{Sheet, LENGTH};

const LAST_SLOT: u8 = 63;
const SLOT_COUNT: u8 = 64;

impl Plan {
    /// Brings the summary up by an entry of this row.
    #[inline(always)]
    pub fn add_turn(&mut self, row: usize, slot: u8, span: u8, targets: &[u8]) {
        let turns = &mut self.turns[row];
        few::each(targets, |target| {
            turns[usize::from(target % 64)] |= bit(slot)
        });
        self.long_enough[row][usize::from(span - 1) % SPANS] |= bit(slot);
    }

    /// The same once all entries of the row have come: one that is long enough for its span is so for
    /// every shorter one.
    #[inline(always)]
    pub fn complete_turns(&mut self, row: usize) {
        let long_enough = &mut self.long_enough[row];
        for span in (1..SPANS).rev() {
            long_enough[span - 1] |= long_enough[span];
        }
    }

    /// By the summary.
    #[inline(always)]
    pub fn next(&self, initiator: u8, target: u8, length: u16, slot: u8) -> Result<u8, Refusal> {
        let row = self.row(initiator).ok_or(Refusal::NoInitiator)?;
        let way = self.way(row, target, length)?;
        if slot > LAST_SLOT {
            return Err(Refusal::Slot);
        }
        let slots = self.turns[row][usize::from(target % 64)] & self.slots_for(row, way, length);
        // The slot after the given one comes to the lowest bit, the given one to the highest.
        let after = slots.rotate_right(u32::from(slot) + 1);
        Ok(after.trailing_zeros() as u8 + 1)
    }

    /// The slots of this row's entries that are long enough for the length over this way. A span whose
    /// lengths were never worked out for its routers, and are 0, has no entry with such a target.
    #[inline(always)]
    fn slots_for(&self, row: usize, way: Way, length: u16) -> u64 {
        let routers = way.routers().index();
        Members(self.spans[row])
            .map(|span| usize::from(span) % SPANS)
            .find(|&span| length < self.lengths[span][routers])
            .map_or(0, |span| self.long_enough[row][span])
    }

    /// By the entries, one slot after another, and the paths' own links; nothing is read that a load
    /// works out from them.
    pub fn next_by_entries(
        &self,
        initiator: u8,
        target: u8,
        length: u16,
        slot: u8,
    ) -> Result<u8, Refusal> {
        let row = self.initiators().iter().position(|&one| one == initiator);
        let row = row.ok_or(Refusal::NoInitiator)?;
        if length > LENGTH {
            return Err(Refusal::Length);
        }
        let permitted = |count: &u8| {
            let stand = (slot % SLOT_COUNT + count) % SLOT_COUNT;
            self.permits(row, stand, target, length)
        };
        let count = (1..=SLOT_COUNT).find(permitted);
        let count = count.ok_or(Refusal::NotPermitted)?;
        if slot > LAST_SLOT {
            return Err(Refusal::Slot);
        }
        Ok(count)
    }

    /// Whether an entry of this row stands there that permits the target with the length.
    fn permits(&self, row: usize, slot: u8, target: u8, length: u16) -> bool {
        let Shape { span, .. } = self.shapes[usize::from(slot)][row];
        let targets = self.targets[usize::from(slot)][row];
        holds(targets, target) && self.has_room(row, target, length, span)
    }

    /// Whether so many slots have room for the length on the way to this target.
    fn has_room(&self, row: usize, target: u8, length: u16, span: u8) -> bool {
        let Some(times) = self.times else {
            return length <= SLOT_BYTES * u16::from(span);
        };
        let there = self.walks[row][usize::from(target)];
        let back = match holds(self.replied[row], target) {
            true => self.replies[row][usize::from(target)],
            false => there,
        };
        let (command, reply) = (there.len() - 1, back.len() - 1);
        let sheet = Sheet::new(command, reply, times.rate, length, times.latencies);
        sheet.total <= u32::from(span) * times.slot_length
    }
}
