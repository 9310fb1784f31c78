//! The two sides, called in the same way.

use reference::{print_verdict, Answer, Event, Unit, Watchdog, LINE};
use spwd::{Refusal, Spwd, Verdict, RECORDS_ROOM};

/// A box of either kind, the five numbers and a record buffer with it. Answers are numbers: 0, or a refusal's.
pub trait Side {
    fn new() -> Self;
    fn clear(&mut self);
    fn load(&mut self, file: &[u8]) -> u8;
    /// Loads the file and gives the printed verdict.
    fn line(&mut self, file: &[u8]) -> String;
    /// The size, 0 if nothing is written.
    fn write_out(&self, out: &mut [u8]) -> usize;
    /// And how many records.
    fn time_code(&mut self, byte: u8, clock: u32) -> (u8, u8);
    fn request(&mut self, initiator: u8, target: u8, kind: u8, length: u16) -> u8;
    fn reply(&mut self, initiator: u8, transaction: u16, status: u8) -> u8;
    fn reading(&mut self, clock: u32) -> u8;
    /// And the count.
    fn next(&self, initiator: u8, target: u8, length: u16, slot: u8) -> (u8, u8);
}

/// The proved library.
pub struct Proved {
    spwd: Spwd,
    records: [u8; RECORDS_ROOM],
}

fn number<T>(answer: Result<T, Refusal>) -> u8 {
    answer.map_or_else(Refusal::number, |_| 0)
}

impl Side for Proved {
    fn new() -> Self {
        Self {
            spwd: Spwd::new(),
            records: [0; RECORDS_ROOM],
        }
    }

    fn clear(&mut self) {
        self.spwd.clear();
    }

    fn load(&mut self, file: &[u8]) -> u8 {
        self.spwd
            .load(file)
            .map_or_else(|fault| fault.number(), |_| 0)
    }

    fn line(&mut self, file: &[u8]) -> String {
        Verdict::from(self.spwd.load(file))
            .line()
            .as_str()
            .to_owned()
    }

    fn write_out(&self, out: &mut [u8]) -> usize {
        self.spwd.write_out(out).unwrap_or(0)
    }

    fn time_code(&mut self, byte: u8, clock: u32) -> (u8, u8) {
        let answer = self.spwd.time_code(byte, clock, &mut self.records);
        (number(answer), answer.unwrap_or(0))
    }

    fn request(&mut self, initiator: u8, target: u8, kind: u8, length: u16) -> u8 {
        number(self.spwd.request(initiator, target, kind, length))
    }

    fn reply(&mut self, initiator: u8, transaction: u16, status: u8) -> u8 {
        number(self.spwd.reply(initiator, transaction, status))
    }

    fn reading(&mut self, clock: u32) -> u8 {
        number(self.spwd.reading(clock))
    }

    fn next(&self, initiator: u8, target: u8, length: u16, slot: u8) -> (u8, u8) {
        let answer = self.spwd.next(initiator, target, length, slot);
        (number(answer), answer.unwrap_or(0))
    }
}

/// The reference.
pub struct Reference {
    unit: Unit,
    watchdog: Watchdog,
    records: [u8; RECORDS_ROOM],
}

impl Reference {
    fn step(&mut self, event: Event) -> Answer {
        self.unit.step(event, &mut self.watchdog, &mut self.records)
    }
}

impl Side for Reference {
    fn new() -> Self {
        Self {
            unit: Unit::new(),
            watchdog: Watchdog::new(),
            records: [0; RECORDS_ROOM],
        }
    }

    fn clear(&mut self) {
        self.unit.clear(&mut self.watchdog);
    }

    fn load(&mut self, file: &[u8]) -> u8 {
        self.unit.load(file, &mut self.watchdog).number()
    }

    fn line(&mut self, file: &[u8]) -> String {
        let mut line = [0; LINE];
        let verdict = self.unit.load(file, &mut self.watchdog);
        let size = print_verdict(&verdict, &mut line);
        String::from_utf8_lossy(&line[..size]).into_owned()
    }

    fn write_out(&self, out: &mut [u8]) -> usize {
        self.unit.write_out(out).1
    }

    fn time_code(&mut self, byte: u8, clock: u32) -> (u8, u8) {
        match self.step(Event::TimeCode { byte, clock }) {
            Answer::Records { count } => (0, count),
            answer => (answer.number(), 0),
        }
    }

    fn request(&mut self, initiator: u8, target: u8, kind: u8, length: u16) -> u8 {
        let event = Event::Request {
            initiator,
            target,
            kind,
            length,
        };
        self.step(event).number()
    }

    fn reply(&mut self, initiator: u8, transaction: u16, status: u8) -> u8 {
        let event = Event::Reply {
            initiator,
            number: transaction,
            status,
        };
        self.step(event).number()
    }

    fn reading(&mut self, clock: u32) -> u8 {
        self.step(Event::Reading { clock }).number()
    }

    fn next(&self, initiator: u8, target: u8, length: u16, slot: u8) -> (u8, u8) {
        self.unit.next(initiator, target, length, slot)
    }
}
