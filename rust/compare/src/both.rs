//! The two boxes side by side: the same calls, and everything that they give back and leave compared, byte by byte.

use crate::sheets::Sheet;
use crate::theirs;
use crate::turns::{Turn, Turned};
use reference::Unit;
use spwd::{Answer, Event, Plan, Record, Refusal, Spwd, Verdict, Watchdog};
use spwd::{Latencies, SheetOutOfRange};
use spwd::{LINE_ROOM, RECORD_SIZE, WRITTEN_MOST};
use std::fmt::Debug;

/// What lent buffers hold before a call.
const FILLED: u8 = 0xa5;
static ALL_FILLED: [u8; WRITTEN_MOST] = [FILLED; WRITTEN_MOST];

/// Something on which the two do not agree.
#[derive(Debug)]
pub struct Difference {
    pub what: &'static str,
    pub proved: String,
    pub reference: String,
}

pub type Outcome<T> = Result<T, Difference>;

/// What an event answered, or the number of its refusal.
pub type Answered = Result<Answer, u8>;

pub fn same<T: PartialEq + Debug>(what: &'static str, proved: T, reference: T) -> Outcome<T> {
    if proved == reference {
        return Ok(proved);
    }
    Err(Difference {
        what,
        proved: format!("{proved:?}"),
        reference: format!("{reference:?}"),
    })
}

/// What the two agreed on after a call.
#[derive(Clone, Copy, Debug, PartialEq, Eq)]
pub struct After {
    /// 0, or the refusal of writing out.
    pub written: u8,
    pub blank: bool,
    pub holds: bool,
    /// Whether a load accepts the file that was asked about.
    pub accepted: bool,
}

/// What is asked of the two after a call.
pub struct Question<'a> {
    /// Room for writing out.
    pub room: usize,
    /// Do they hold the plan of this file?
    pub file: &'a [u8],
    /// The next turn under the plan of that file.
    pub turn: Turn,
}

#[derive(Default)]
pub struct Both {
    proved: Spwd,
    unit: Unit,
    watchdog: reference::Watchdog,
    /// Plan memory beside the box's, and a box beside the reference's.
    other: Plan,
    their_other: Unit,
}

impl Both {
    /// The five numbers of both.
    pub fn watchdog(&self) -> Watchdog {
        self.proved.watchdog()
    }

    /// Lends both these five numbers.
    pub fn lend(&mut self, five: [u32; 5]) {
        self.proved.set_watchdog(five.into());
        self.watchdog = theirs::watchdog(five);
    }

    /// Loads the file into both and gives the verdict in document 01's numbers.
    pub fn load(&mut self, file: &[u8]) -> Outcome<[u32; 5]> {
        let verdict = Verdict::from(self.proved.load(file));
        let their_verdict = self.unit.load(file, &mut self.watchdog);
        let their_numbers = theirs::verdict(&their_verdict);
        let numbers = same("verdict", verdict.numbers(), their_numbers)?;
        let (mut line, mut their_line) = ([FILLED; LINE_ROOM], [FILLED; LINE_ROOM]);
        let size = verdict.print(&mut line);
        let their_size = reference::print_verdict(&their_verdict, &mut their_line);
        same("size of the printed line", size, their_size)?;
        same("printed line and buffer beyond it", line, their_line)?;
        self.same_five()?;
        Ok(numbers)
    }

    pub fn clear(&mut self) -> Outcome<()> {
        self.proved.clear();
        self.unit.clear(&mut self.watchdog);
        self.same_five()
    }

    /// Hands both the event and a record buffer of this size, and gives the answer, or a refusal's number, and the records.
    pub fn step(&mut self, event: Event, room: usize) -> Outcome<(Answered, Vec<Record>)> {
        let (mut records, mut their_records) = (vec![FILLED; room], vec![FILLED; room]);
        let answer = self.proved.step(event, &mut records);
        let event = theirs::event(event);
        let their_answer = self
            .unit
            .step(event, &mut self.watchdog, &mut their_records);
        let answer = same(
            "answer",
            answer.map_err(Refusal::number),
            theirs::answer(&their_answer),
        )?;
        let records = same("records and buffer beyond them", records, their_records)?;
        self.same_five()?;
        let count = match answer {
            Ok(Answer::Recorded(count)) => count,
            _ => 0,
        };
        let beyond = usize::from(count) * RECORD_SIZE;
        let untouched = records[beyond..].iter().all(|&byte| byte == FILLED);
        same("buffer beyond the records untouched", untouched, true)?;
        Ok((answer, spwd::records(&records, count).collect()))
    }

    /// Asks both for the next turn, which leaves the box as it was.
    pub fn next(&mut self, turn: Turn) -> Outcome<Turned> {
        let before = self.proved.clone();
        let answer = turn.ask(|i, t, d, slot| self.proved.next(i, t, d, slot));
        let answer = same_turn(answer, &self.unit, turn)?;
        let unchanged = self.proved == before;
        same("box as it was before it was asked", unchanged, true)?;
        Ok(answer)
    }

    fn same_five(&self) -> Outcome<()> {
        let five: [u32; 5] = self.proved.watchdog().into();
        same("the five numbers", five, theirs::five(&self.watchdog))?;
        Ok(())
    }

    /// Compares what can be asked of the two at any time, which leaves the box as it was.
    pub fn after(&mut self, question: &Question) -> Outcome<After> {
        let before = self.proved.clone();
        let blank = same(
            "is blank",
            self.proved.is_blank(),
            self.unit.is_blank(&self.watchdog),
        )?;
        let written = same_written(self.proved.plan(), &self.unit, question.room)?;
        let holds = self.holds(question.file)?;
        let other_written = same_written(&self.other, &self.their_other, WRITTEN_MOST)?;
        let turn = question.turn;
        let answer = turn.ask(|i, t, d, slot| self.other.next(i, t, d, slot));
        same_turn(answer, &self.their_other, turn).map(drop)?;
        let unchanged = self.proved == before;
        same("box as it was before it was asked", unchanged, true)?;
        Ok(After {
            written,
            blank,
            holds,
            accepted: other_written == 0,
        })
    }

    /// Whether both hold the plan of this file, which is then in the memory beside them. The reference writes plans out alike exactly where
    /// it says that they are the same.
    fn holds(&mut self, file: &[u8]) -> Outcome<bool> {
        let theirs = self.unit.holds(file, &mut self.their_other);
        let ours = self.proved.holds(file, &mut self.other);
        let holds = same("holds the plan of the file", ours, theirs)?;
        let alike = theirs::written_alike(&self.unit, &self.their_other);
        same("plans written out alike", holds, alike)
    }
}

/// The time sheet of both; whether it is accepted.
pub fn same_sheet(sheet: &Sheet) -> Outcome<bool> {
    let Sheet {
        command_routers,
        reply_routers,
        rate,
        length,
        latencies: [a, d, f, g],
    } = *sheet;
    let latencies = Latencies { a, d, f, g };
    let number = |SheetOutOfRange| SheetOutOfRange::NUMBER;
    let theirs = theirs::sheet(sheet);
    let answer = spwd::sheet2(command_routers, reply_routers, rate, length, latencies);
    let two_ways = same("sheet of two ways", answer.map_err(number), theirs)?;
    if command_routers == reply_routers {
        let answer = spwd::sheet(command_routers, rate, length, latencies);
        return Ok(same("sheet", answer.map_err(number), theirs)?.is_ok());
    }
    Ok(two_ways.is_ok())
}

/// The next turn by both, and by the reference's search over all entries.
fn same_turn(answer: Result<u8, Refusal>, unit: &Unit, turn: Turn) -> Outcome<Turned> {
    let answer = answer.map_err(Refusal::number);
    let numbers = match answer {
        Ok(count) => (0, count),
        Err(number) => (number, 0),
    };
    let theirs = turn.ask(|i, t, d, slot| unit.next(i, t, d, slot));
    same("next turn", numbers, theirs)?;
    let searched = turn.ask(|i, t, d, slot| unit.next_by_entries(i, t, d, slot));
    same("next turn by reading all entries", numbers, searched)?;
    Ok(answer)
}

/// The plan written out by both; the number of the answer.
fn same_written(plan: &Plan, unit: &Unit, room: usize) -> Outcome<u8> {
    let (mut out, mut their_out) = ([FILLED; WRITTEN_MOST], [FILLED; WRITTEN_MOST]);
    let room = room.min(WRITTEN_MOST);
    let answer = match plan.write_out(&mut out[..room]) {
        Ok(size) => (0, size),
        Err(refusal) => (refusal.number(), 0),
    };
    let their_answer = unit.write_out(&mut their_out[..room]);
    let (number, size) = same("answer of writing out", answer, their_answer)?;
    same("plan written out and room beyond it", &out[..], &their_out)?;
    let untouched = out[size..] == ALL_FILLED[size..];
    same("room beyond the plan untouched", untouched, true)?;
    Ok(number)
}
