//! Questions for the next turn of a request, and what their answers show of it.

use crate::permits::Permit;
use crate::times::Times;

/// Counted from this slot.
#[derive(Clone, Copy, Debug, PartialEq, Eq)]
pub struct Turn {
    pub initiator: u8,
    pub target: u8,
    pub length: u16,
    pub slot: u8,
}

impl Turn {
    /// Asks a box that takes the four numbers in their order.
    pub fn ask<T>(self, next: impl FnOnce(u8, u8, u16, u8) -> T) -> T {
        next(self.initiator, self.target, self.length, self.slot)
    }
}

/// The count, or the number of the refusal.
pub type Turned = Result<u8, u8>;

#[derive(Clone, Copy, Debug, PartialEq, Eq)]
pub enum Shown {
    OverTheEnd,
    LongEntry,
    ShortPassed,
    CoveredPassed,
    WithTimes,
    WithReplies,
    ByTimes,
    ByReply,
}

impl Shown {
    /// In their order.
    pub const ALL: [(Self, &str); 8] = [
        (Self::OverTheEnd, "behind slot 63, before the same again"),
        (Self::LongEntry, "at an entry of more than one slot"),
        (Self::ShortPassed, "behind an entry that is too short"),
        (
            Self::CoveredPassed,
            "behind a slot that its entry covers only",
        ),
        (Self::WithTimes, "under a plan with a 06"),
        (Self::WithReplies, "under a plan with a 07"),
        (Self::ByTimes, "another than by 256 bytes a slot"),
        (
            Self::ByReply,
            "another than with the reply back over the path",
        ),
    ];
}

/// The entries of an accepted plan, each with one of its targets, and what else bears on turns.
pub struct Entries<'a> {
    pub permits: &'a [Permit],
    pub times: Option<Times>,
    pub has_replies: bool,
}

impl Entries<'_> {
    /// What a count shows.
    pub fn shown(&self, turn: Turn, count: u8) -> Vec<Shown> {
        let pair = (turn.initiator, turn.target);
        let own = self.permits.iter();
        let own = own.filter(|one| (one.initiator, one.target) == pair);
        let own: Vec<Permit> = own.copied().collect();
        let fits = |one: &Permit| self.fits(one, turn.length);
        let nearest = |fits: &dyn Fn(&Permit) -> bool| {
            let fitting = own.iter().filter(|one| fits(one));
            fitting.map(|one| distance(turn.slot, one.slot)).min()
        };
        let at_turn = |one: &Permit| distance(turn.slot, one.slot) == count;
        let passed = |slot: u8| distance(turn.slot, slot) < count;
        let covers_passed = |one: &Permit| {
            let mut covered = (1..one.span).map(|after| one.slot + after);
            fits(one) && covered.any(|slot| passed(slot % 64))
        };
        let by_256 = nearest(&|one| within(one, turn.length));
        let over_the_path = nearest(&|one| fits(&one.back_over_the_path()));
        let all = [
            (Shown::OverTheEnd, count < 64 && turn.slot + count > 63),
            (
                Shown::LongEntry,
                own.iter().any(|one| at_turn(one) && one.span > 1),
            ),
            (
                Shown::ShortPassed,
                own.iter().any(|one| passed(one.slot) && !fits(one)),
            ),
            (Shown::CoveredPassed, own.iter().any(covers_passed)),
            (Shown::WithTimes, self.times.is_some()),
            (Shown::WithReplies, self.has_replies),
            (Shown::ByTimes, by_256 != Some(count)),
            (Shown::ByReply, over_the_path != Some(count)),
        ];
        let so = all.into_iter().filter(|(_, so)| *so);
        so.map(|(what, _)| what).collect()
    }

    fn fits(&self, permit: &Permit, length: u16) -> bool {
        match &self.times {
            None => within(permit, length),
            Some(times) => times.fits(permit, length),
        }
    }
}

/// Whether a length has room in an entry's slots at 256 bytes each.
fn within(permit: &Permit, length: u16) -> bool {
    length <= 256 * u16::from(permit.span)
}

/// Slots from one to the other, 64 if they are the same.
fn distance(from: u8, to: u8) -> u8 {
    (to + 63 - from) % 64 + 1
}
