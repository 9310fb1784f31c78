//! What the times of a plan decided of requests, in the course of a history.

use crate::both::Answered;
use crate::fields::split;
use crate::permits::{permits, Permit};
use crate::times::Times;
use spwd::{Answer, Event, Record, Refusal};

#[derive(Clone, Copy, Debug, PartialEq, Eq)]
pub enum ByTime {
    TakenExactly,
    TakenBeyond,
    RefusedByOne,
    RefusedWithin,
    RefusedEmpty,
    StartedExactly,
    PassedByOne,
    TakenByReply,
    RefusedByReply,
    StartedByReply,
    PassedByReply,
}

impl ByTime {
    /// In their order.
    pub const ALL: [(Self, &str); 11] = [
        (Self::TakenExactly, "taken with no ns to spare"),
        (Self::TakenBeyond, "taken above 256 bytes a slot"),
        (Self::RefusedByOne, "refused with 25 for one ns"),
        (
            Self::RefusedWithin,
            "refused with 25 up to 256 bytes a slot",
        ),
        (Self::RefusedEmpty, "refused with 25 at length 0"),
        (Self::StartedExactly, "started with no ns to spare"),
        (Self::PassedByOne, "left waiting for one ns"),
        (Self::TakenByReply, "taken for its reply's own way"),
        (
            Self::RefusedByReply,
            "refused with 25 for its reply's own way",
        ),
        (Self::StartedByReply, "started for its reply's own way"),
        (Self::PassedByReply, "left waiting for its reply's own way"),
    ];
}

struct Asked {
    initiator: u8,
    target: u8,
    length: u16,
}

/// A request in its line.
struct Waiting {
    asked: Asked,
    transaction: u16,
}

impl Waiting {
    fn starts(&self, record: &Record) -> bool {
        let told = (record.kind, record.initiator, record.transaction);
        told == (Record::STARTED, self.asked.initiator, self.transaction)
    }
}

/// Follows the events of a box under one plan.
#[derive(Default)]
pub struct Watcher {
    permits: Vec<Permit>,
    times: Option<Times>,
    /// In the order of joining.
    waiting: Vec<Waiting>,
}

impl Watcher {
    /// For a box under the plan of this file.
    pub fn under(file: &[u8]) -> Self {
        let (fields, _) = split(file);
        Self {
            permits: permits(&fields),
            times: Times::among(&fields),
            waiting: Vec::new(),
        }
    }

    /// Takes the next event, and says what the plan's times decided at it.
    pub fn take(&mut self, event: &Event, answer: &Answered, records: &[Record]) -> Vec<ByTime> {
        let Some(times) = self.times else {
            return Vec::new();
        };
        match *event {
            Event::Request {
                initiator,
                target,
                length,
                ..
            } => {
                let asked = Asked {
                    initiator,
                    target,
                    length,
                };
                self.request(&times, asked, answer)
            }
            Event::TimeCode { byte, .. } if answer.is_ok() => self.time_code(&times, byte, records),
            _ => Vec::new(),
        }
    }

    /// By the longest entry with its target.
    fn request(&mut self, times: &Times, asked: Asked, answer: &Answered) -> Vec<ByTime> {
        const NOT_PERMITTED: u8 = Refusal::NOT_PERMITTED.number();
        let aimed = |one: &&Permit| (one.initiator, one.target) == (asked.initiator, asked.target);
        let longest = self.permits.iter().filter(aimed);
        let Some(permit) = longest.max_by_key(|one| one.span) else {
            return Vec::new();
        };
        let within = asked.length <= 256 * u16::from(permit.span);
        let spare = times.spare(permit, asked.length);
        let over_the_path = times.fits(&permit.back_over_the_path(), asked.length);
        match *answer {
            Ok(Answer::Joined(transaction)) => {
                self.waiting.push(Waiting { asked, transaction });
                only(&[
                    (ByTime::TakenExactly, spare == Some(0)),
                    (ByTime::TakenBeyond, !within),
                    (ByTime::TakenByReply, !over_the_path),
                ])
            }
            Err(NOT_PERMITTED) => only(&[
                (ByTime::RefusedByOne, spare == Some(-1)),
                (ByTime::RefusedWithin, within),
                (ByTime::RefusedEmpty, asked.length == 0),
                (ByTime::RefusedByReply, over_the_path),
            ]),
            _ => Vec::new(),
        }
    }

    /// By the entry that stands at its value. What waits behind a request that starts is not asked.
    fn time_code(&mut self, times: &Times, value: u8, records: &[Record]) -> Vec<ByTime> {
        let mut decided = Vec::new();
        let out_of_sequence = |record: &Record| record.kind == Record::OUT_OF_SEQUENCE;
        if records.iter().any(out_of_sequence) {
            return decided;
        }
        let mut served = Vec::new();
        for one in &self.waiting {
            let asked = &one.asked;
            let (Some(permit), false) =
                (self.entry(asked, value), served.contains(&asked.initiator))
            else {
                continue;
            };
            let started = records.iter().any(|record| one.starts(record));
            if started {
                served.push(asked.initiator);
            }
            let spare = times.spare(permit, asked.length);
            let over_the_path = times.fits(&permit.back_over_the_path(), asked.length);
            let fits = times.fits(permit, asked.length);
            decided.extend(only(&[
                (ByTime::StartedExactly, started && spare == Some(0)),
                (ByTime::PassedByOne, !started && spare == Some(-1)),
                (ByTime::StartedByReply, started && !over_the_path),
                (ByTime::PassedByReply, !started && !fits && over_the_path),
            ]));
        }
        self.waiting
            .retain(|one| !records.iter().any(|record| one.starts(record)));
        decided
    }

    /// The entry of its initiator at this slot, if it has the target.
    fn entry(&self, asked: &Asked, slot: u8) -> Option<&Permit> {
        let entry = (asked.initiator, slot, asked.target);
        let mut permits = self.permits.iter();
        permits.find(|permit| (permit.initiator, permit.slot, permit.target) == entry)
    }
}

/// Those that are so.
fn only(all: &[(ByTime, bool)]) -> Vec<ByTime> {
    let so = all.iter().filter(|(_, so)| *so);
    so.map(|&(what, _)| what).collect()
}
