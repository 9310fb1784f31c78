//! The box.

use crate::event::{eight, Answer, Ended, Event};
use crate::image::Image;
use crate::plan::Plan;
use crate::raw;
use crate::refusal::{taken, Refusal};
use crate::verdict::{judged, Counts, Fault};
use crate::version_fits;
use crate::watchdog::Watchdog;
use core::fmt;

/// One box: a plan, the initiators that run under it, and the watchdog's five numbers.
#[derive(Clone, PartialEq, Eq)]
pub struct Spwd {
    plan: Plan,
    run: raw::Run,
    last: raw::Last,
    watchdog: Watchdog,
}

impl Spwd {
    /// A box as after a clear: every number is 0. It can stand in a static.
    pub const fn new() -> Self {
        Self {
            plan: Plan::new(),
            run: [0; 96],
            last: [0],
            watchdog: Watchdog {
                last: 0,
                seen: 0,
                reported: 0,
                least: 0,
                greatest: 0,
            },
        }
    }

    /// Makes it the box before any load, every number of it and the five.
    pub fn clear(&mut self) {
        raw::clear(
            &mut self.plan,
            &mut self.run,
            &mut self.last,
            &mut self.watchdog,
        );
    }

    /// Judges a plan file and gives the counts of its plan. Accepted, it replaces everything: nothing waits, nothing is live, numbers
    /// begin at 0, and the five have its intervals. Refused, the box is that of a clear.
    /// The [`Verdict`](crate::Verdict) made from either has the line to print.
    ///
    /// # Errors
    /// The first [`Fault`] of the file.
    pub fn load(&mut self, file: &[u8]) -> Result<Counts, Fault> {
        debug_assert!(version_fits(), "the archive is of another version");
        judged(raw::load(
            file,
            &mut self.plan,
            &mut self.run,
            &mut self.last,
            &mut self.watchdog,
        ))
    }

    /// Takes one event. Only a time-code uses the record buffer. A refusal leaves box, buffer and the five as they were.
    ///
    /// The four methods below take one kind of event each and answer in its own type.
    ///
    /// # Errors
    /// Those of the method for the event.
    pub fn step(&mut self, event: Event, records: &mut [u8]) -> Result<Answer, Refusal> {
        match event {
            Event::TimeCode { byte, clock } => {
                self.time_code(byte, clock, records).map(Answer::Recorded)
            }
            Event::Request {
                initiator,
                target,
                kind,
                length,
            } => self
                .request(initiator, target, kind, length)
                .map(Answer::Joined),
            Event::Reply {
                initiator,
                transaction,
                status,
            } => self
                .reply(initiator, transaction, status)
                .map(Answer::Ended),
            Event::Reading { clock } => self.reading(clock).map(Answer::Told),
        }
    }

    /// Takes a time-code and gives how many records it wrote; [`records`](crate::records()) reads them. The buffer beyond them keeps
    /// its bytes.
    ///
    /// # Errors
    /// [`Refusal::NO_PLAN`], [`Refusal::UPPER_BITS`], [`Refusal::SMALL_BUFFER`].
    #[inline]
    pub fn time_code(&mut self, byte: u8, clock: u32, records: &mut [u8]) -> Result<u8, Refusal> {
        let (run, last, watchdog) = (&mut self.run, &mut self.last, &mut self.watchdog);
        let numbers = raw::time_code(&self.plan, run, last, watchdog, byte, clock, records);
        let [number, count, ..] = numbers;
        whole(
            numbers,
            taken(number).map(|()| count as u8),
            Answer::Recorded,
        )
    }

    /// Puts a request into its initiator's line and gives its transaction number. The kind is [`READ`](crate::READ) or
    /// [`WRITE`](crate::WRITE).
    ///
    /// # Errors
    /// [`Refusal::NO_PLAN`], [`Refusal::NO_INITIATOR`], [`Refusal::UNKNOWN_KIND`], [`Refusal::LENGTH_OVER_MOST`],
    /// [`Refusal::NOT_PERMITTED`], [`Refusal::LINE_FULL`].
    #[inline]
    pub fn request(
        &mut self,
        initiator: u8,
        target: u8,
        kind: u8,
        length: u16,
    ) -> Result<u16, Refusal> {
        let (plan, run) = (&self.plan, &mut self.run);
        let numbers = raw::request(plan, run, initiator, target, kind, length);
        let [number, _, transaction, ..] = numbers;
        whole(
            numbers,
            taken(number).map(|()| transaction as u16),
            Answer::Joined,
        )
    }

    /// Ends the live transaction of an initiator.
    ///
    /// # Errors
    /// [`Refusal::NO_PLAN`], [`Refusal::NO_INITIATOR`], [`Refusal::NOTHING_LIVE`], [`Refusal::OTHER_TRANSACTION`].
    #[inline]
    pub fn reply(&mut self, initiator: u8, transaction: u16, status: u8) -> Result<Ended, Refusal> {
        let numbers = raw::reply(&self.plan, &mut self.run, initiator, transaction, status);
        let [number, _, _, target, length, status, status_class, _] = numbers;
        let ended = Ended {
            target: target as u8,
            length: length as u16,
            status: status as u8,
            status_class: status_class as u8,
        };
        whole(numbers, taken(number).map(|()| ended), Answer::Ended)
    }

    /// Takes a clock reading and says, once, whether the next time-code is overdue.
    ///
    /// # Errors
    /// [`Refusal::NO_PLAN`].
    #[inline]
    pub fn reading(&mut self, clock: u32) -> Result<bool, Refusal> {
        let numbers = raw::reading(&self.plan, &mut self.watchdog, clock);
        let [number, .., late] = numbers;
        whole(numbers, taken(number).map(|()| late != 0), Answer::Told)
    }

    /// How many slots after this one the next turn is: the next slot at which an entry of the initiator stands that permits the target with
    /// this length. 1 is the slot after it, [`SLOTS`](crate::SLOTS) that slot again. Only the plan is asked, not what waits or is live.
    ///
    /// With the slot of the last time-code taken since the load, if there was one: a request that is taken now, into an empty line, starts
    /// at the time-code of this count, if all from here on are in sequence.
    ///
    /// ```
    /// # let plan = [
    /// #     1, 0, 2, 1, 0, 1, 0, 2, 2, 0, 2, 0, 3, 0, 1, 2, 3, 0, 3, 1, 2, 0, 4, 0, 4, 1, 5, 1, 2,
    /// #     5, 0, 8, 0, 0, 0, 90, 0, 0, 0, 110,
    /// # ];
    /// # let mut spwd = spwd::Spwd::new();
    /// # spwd.load(&plan).unwrap();
    /// // Under a plan where 1 may start to 2 in slot 5.
    /// assert_eq!(spwd.next(1, 2, 100, 3), Ok(2));
    /// assert_eq!(spwd.next(1, 2, 100, 5), Ok(64));
    /// assert_eq!(spwd.next(1, 2, 257, 3), Err(spwd::Refusal::NOT_PERMITTED));
    /// ```
    ///
    /// # Errors
    /// [`Refusal::NO_PLAN`], [`Refusal::NO_INITIATOR`], [`Refusal::LENGTH_OVER_MOST`], [`Refusal::NOT_PERMITTED`],
    /// [`Refusal::SLOT_OVER_MOST`].
    #[inline]
    pub fn next(&self, initiator: u8, target: u8, length: u16, slot: u8) -> Result<u8, Refusal> {
        self.plan.next(initiator, target, length, slot)
    }

    /// Writes the plan out as a file, in canonical order, and gives its size, at most [`WRITTEN_MOST`](crate::WRITTEN_MOST).
    /// Room beyond it keeps its bytes; on a refusal all of it does.
    ///
    /// # Errors
    /// [`Refusal::NO_PLAN`], [`Refusal::SMALL_ROOM`].
    pub fn write_out(&self, out: &mut [u8]) -> Result<usize, Refusal> {
        self.plan.write_out(out)
    }

    /// Whether every number of the box and of the five is that of a clear.
    #[must_use]
    pub fn is_blank(&self) -> bool {
        raw::is_blank(&self.plan, &self.run, &self.last, &self.watchdog)
    }

    /// Whether the box holds the plan of this file, in whatever order it gives it. The file is read into `other`, which has its plan
    /// afterwards, or none if a load refuses it.
    #[must_use]
    pub fn holds(&self, file: &[u8], other: &mut Plan) -> bool {
        raw::holds(file, &self.plan, other)
    }

    /// The plan's memory.
    pub const fn plan(&self) -> &Plan {
        &self.plan
    }

    /// All of its memory, as a jig reads it back.
    pub fn image(&self) -> Image {
        Image::of(&self.plan, &self.run, self.watchdog, self.last)
    }

    /// The watchdog's five numbers.
    pub fn watchdog(&self) -> Watchdog {
        self.watchdog
    }

    /// Lends five other numbers: a caller may lend any, and an event answers for the five as lent.
    pub fn set_watchdog(&mut self, five: Watchdog) {
        self.watchdog = five;
    }
}

/// The answer as it is. Where debug assertions are on, it must have all of the eight numbers that the archive gave, and these no more.
#[inline]
fn whole<T: Copy>(
    numbers: [u32; 8],
    answer: Result<T, Refusal>,
    case: fn(T) -> Answer,
) -> Result<T, Refusal> {
    debug_assert_eq!(eight(answer.map(case)), numbers);
    answer
}

impl fmt::Debug for Spwd {
    /// Whether there is a plan, whether the box is blank, and the five; not its arrays.
    fn fmt(&self, formatter: &mut fmt::Formatter<'_>) -> fmt::Result {
        let mut shown = formatter.debug_struct("Spwd");
        shown.field("plan", &self.plan.is_given());
        shown.field("blank", &self.is_blank());
        shown.field("watchdog", &self.watchdog);
        shown.finish_non_exhaustive()
    }
}

impl Default for Spwd {
    fn default() -> Self {
        Self::new()
    }
}
