//! The initiator box: reads a plan file, judges it, and runs all initiators of one network under
//! it.
#![no_std]
#![forbid(unsafe_code)]

mod bits;
mod event;
mod few;
mod load;
mod next;
mod plan;
mod run;
mod sheet;
mod verdict;
mod watchdog;
mod write_out;

pub use event::{Answer, Event, Refusal};
pub use sheet::{sheet, Latencies, Sheet};
pub use verdict::{print_verdict, Fault, Verdict, LINE};
pub use watchdog::Watchdog;

use plan::Plan;
use run::{Records, Run};

/// The least size of a record buffer that a time-code takes.
pub const RECORD_BUFFER: usize = 136;
/// The greatest size of a plan written out: it is as long as its file.
pub const WRITTEN_OUT: usize = load::FILE;

/// One box: a plan and the initiators running under it.
#[derive(Clone, Debug, PartialEq, Eq)]
pub struct Unit {
    plan: Plan,
    run: Run,
}

impl Unit {
    /// A box as after a clear.
    pub const fn new() -> Self {
        Self {
            plan: Plan::new(),
            run: Run::new(),
        }
    }

    pub fn clear(&mut self, watchdog: &mut Watchdog) {
        self.plan.clear();
        self.run = Run::new();
        *watchdog = Watchdog::new();
    }

    /// Replaces everything by the plan in the file, or clears if the file is refused.
    pub fn load(&mut self, file: &[u8], watchdog: &mut Watchdog) -> Verdict {
        self.clear(watchdog);
        let verdict = load::load(&mut self.plan, file);
        match verdict {
            Verdict::Accepted { .. } => {
                *watchdog = Watchdog::with_intervals(self.plan.least, self.plan.greatest);
            }
            _ => self.plan.clear(),
        }
        verdict
    }

    /// Writes the plan out and answers 0 and the size, or a refusal's number and 0.
    pub fn write_out(&self, out: &mut [u8]) -> (u8, usize) {
        if !self.plan.loaded {
            return (Refusal::NoPlan as u8, 0);
        }
        let size = usize::from(self.plan.size);
        match out.get_mut(..size) {
            None => (Refusal::SmallRoom as u8, 0),
            Some(out) => {
                write_out::write_out(&self.plan, out);
                (0, size)
            }
        }
    }

    /// Whether every number of the box and of the five is that of a clear.
    pub fn is_blank(&self, watchdog: &Watchdog) -> bool {
        static CLEARED: Unit = Unit::new();
        *self == CLEARED && *watchdog == Watchdog::new()
    }

    /// Whether a load accepts the file and the box has its plan, in whatever order the file gives it: the
    /// tables of a plan do not tell in which order they were filled. The file is loaded into `other`.
    pub fn holds(&self, file: &[u8], other: &mut Unit) -> bool {
        let verdict = other.load(file, &mut Watchdog::new());
        verdict.number() == 0 && self.plan == other.plan
    }

    /// Answers 0 and how many slots after the given one this initiator may next start such a request:
    /// 1 is the slot after it, 64 that slot again. Or a refusal's number and 0.
    #[inline]
    pub fn next(&self, initiator: u8, target: u8, length: u16, slot: u8) -> (u8, u8) {
        self.counted(|plan| plan.next(initiator, target, length, slot))
    }

    /// The same by a plain search over all entries, which the summary must not differ from.
    pub fn next_by_entries(&self, initiator: u8, target: u8, length: u16, slot: u8) -> (u8, u8) {
        self.counted(|plan| plan.next_by_entries(initiator, target, length, slot))
    }

    #[inline(always)]
    fn counted(&self, next: impl FnOnce(&Plan) -> Result<u8, Refusal>) -> (u8, u8) {
        if !self.plan.loaded {
            return (Refusal::NoPlan as u8, 0);
        }
        match next(&self.plan) {
            Ok(count) => (0, count),
            Err(refusal) => (refusal as u8, 0),
        }
    }

    /// Takes one event. Only a time-code uses the record buffer.
    #[inline]
    pub fn step(&mut self, event: Event, watchdog: &mut Watchdog, records: &mut [u8]) -> Answer {
        if !self.plan.loaded {
            return Answer::Refused(Refusal::NoPlan);
        }
        let (plan, run) = (&self.plan, &mut self.run);
        match event {
            Event::TimeCode { byte, clock } => self.time_code(byte, clock, watchdog, records),
            Event::Request {
                initiator,
                target,
                kind,
                length,
            } => run.request(plan, initiator, target, kind, length),
            Event::Reply {
                initiator,
                number,
                status,
            } => run.reply(plan, initiator, number, status),
            Event::Reading { clock } => Ok(Answer::Reading {
                late: watchdog.reading(clock),
            }),
        }
        .unwrap_or_else(Answer::Refused)
    }

    #[inline(never)]
    fn time_code(
        &mut self,
        byte: u8,
        clock: u32,
        watchdog: &mut Watchdog,
        buffer: &mut [u8],
    ) -> Result<Answer, Refusal> {
        if byte > 63 {
            return Err(Refusal::UpperBits);
        }
        let mut records = Records::new(buffer, byte).ok_or(Refusal::SmallBuffer)?;
        if let Some(kind) = watchdog.time_code(clock) {
            records.mark(kind);
        }
        self.run.time_code(&self.plan, &mut records);
        Ok(Answer::Records {
            count: records.count(),
        })
    }
}

impl Default for Unit {
    fn default() -> Self {
        Self::new()
    }
}
