//! The cases: files, histories, requests followed to their starts, a history so long that transaction numbers run round, times at their
//! bounds, and sheets.

use crate::asked::{Asked, Holds};
use crate::blank::{Blank, Moment};
use crate::both::{same, same_sheet, After, Answered, Both, Difference, Outcome, Question};
use crate::counter_tally::Told;
use crate::damage::{damaged, noise};
use crate::decided::Watcher;
use crate::events::{five, Actor};
use crate::part::Part;
use crate::plans;
use crate::random::Random;
use crate::sheets::{self, Sheet};
use crate::starts::Starts;
use crate::tally::Tally;
use crate::theirs;
use crate::times;
use crate::turns::{Turn, Turned};
use spwd::{Answer, Event, Record, Refusal, READ, RECORDS_ROOM, WRITTEN_MOST};

/// A case that showed a difference.
#[derive(Debug)]
pub struct Failure {
    /// What was done last.
    pub call: String,
    /// The file that was loaded last.
    pub file: Vec<u8>,
    pub difference: Difference,
}

/// Two boxes on their way through calls drawn at random.
pub struct Case<'a> {
    both: Both,
    random: Random,
    tally: &'a mut Tally,
    actor: Actor,
    watcher: Watcher,
    starts: Starts,
    file: Vec<u8>,
    call: String,
    moment: Moment,
    /// Whether the five are as a caller lent them, or what events made of these.
    five_lent: bool,
}

impl<'a> Case<'a> {
    pub fn new(random: Random, tally: &'a mut Tally) -> Self {
        Self {
            both: Both::default(),
            random,
            tally,
            actor: Actor::default(),
            watcher: Watcher::default(),
            starts: Starts::default(),
            file: Vec::new(),
            call: String::new(),
            moment: Moment::default(),
            five_lent: false,
        }
    }

    /// A file, damaged or not, then a few events, a clear, one more, and five numbers lent.
    pub fn file(mut self) -> Result<(), Box<Failure>> {
        let outcome = self.file_and_some();
        self.told(outcome)
    }

    /// An accepted plan, and so many events under it with clears and loads in the middle.
    pub fn history(mut self, events: u64) -> Result<(), Box<Failure>> {
        let outcome = self.some_events(events);
        self.told(outcome)
    }

    /// An accepted plan, and requests into empty lines, each with time-codes in sequence until it starts.
    pub fn followed(mut self) -> Result<(), Box<Failure>> {
        let outcome = self.some_followed();
        self.told(outcome)
    }

    /// One initiator with a start in each slot, until it has had all numbers and some again.
    pub fn round(mut self) -> Result<(), Box<Failure>> {
        let outcome = self.all_numbers();
        self.told(outcome)
    }

    /// A plan with each number of its times at each bound.
    pub fn times(mut self) -> Result<(), Box<Failure>> {
        let outcome = self.times_at_bounds();
        self.told(outcome)
    }

    /// Time sheets: all bounds with each other, and so many at random.
    pub fn sheets(mut self, count: u64) -> Result<(), Box<Failure>> {
        let outcome = self.all_sheets(count);
        self.told(outcome)
    }

    fn told(self, outcome: Outcome<()>) -> Result<(), Box<Failure>> {
        outcome.map_err(|difference| {
            Box::new(Failure {
                call: self.call,
                file: self.file,
                difference,
            })
        })
    }

    fn file_and_some(&mut self) -> Outcome<()> {
        self.load_accepted()?;
        self.step()?;
        let file = any_file(&mut self.random);
        self.load(file)?;
        for _ in 0..self.random.below(3) {
            self.step()?;
        }
        if self.random.chance(100) {
            self.clear()?;
            self.step()?;
            self.lend()?;
        }
        Ok(())
    }

    fn some_events(&mut self, events: u64) -> Outcome<()> {
        self.after()?;
        self.load_accepted()?;
        for _ in 0..events {
            match self.random.below(1000) {
                0 => self.clear()?,
                1 | 2 => {
                    let file = any_file(&mut self.random);
                    self.load(file)?;
                }
                3..6 => self.load_accepted()?,
                6..20 => self.lend()?,
                20..60 if !self.actor.has_plan() => self.load_accepted()?,
                60..300 => self.turns()?,
                _ => {}
            }
            self.step()?;
        }
        Ok(())
    }

    /// Each request twice: where it has one turn alone, the second one waits for the same slot again.
    fn some_followed(&mut self) -> Outcome<()> {
        self.load_accepted()?;
        self.in_sequence()?;
        for _ in 0..5 {
            let request = self.actor.request(false, &mut self.random);
            self.follow(request)?;
            self.follow(request)?;
        }
        Ok(())
    }

    /// Others may join this line or another one meanwhile.
    fn follow(&mut self, request: Event) -> Outcome<()> {
        self.take(request, 0).map(drop)?;
        for _ in 0..128 {
            if !self.starts.waits() {
                break;
            }
            if self.random.chance(50) {
                let request = self.actor.request(false, &mut self.random);
                self.take(request, 0).map(drop)?;
            }
            self.in_sequence()?;
        }
        Ok(())
    }

    /// A time-code in sequence.
    fn in_sequence(&mut self) -> Outcome<()> {
        let last = self.starts.last();
        let byte = last.map_or(self.random.byte(), |last| last + 1) % 64;
        let clock = self.random.word();
        let time_code = Event::TimeCode { byte, clock };
        self.take(time_code, RECORDS_ROOM).map(drop)
    }

    fn all_numbers(&mut self) -> Outcome<()> {
        let file = plans::each_slot(&mut self.random);
        self.load(file)?;
        let request = Event::Request {
            initiator: 7,
            target: 9,
            kind: READ,
            length: 256,
        };
        let mut before = 0;
        for count in 0..65_600_u32 {
            let transaction = match self.take(request, 0)? {
                Ok(Answer::Joined(transaction)) => transaction,
                _ => 0,
            };
            self.tally.rounds += u64::from((before, transaction) == (65_535, 0));
            before = transaction;
            let time_code = Event::TimeCode {
                byte: (count % 64) as u8,
                clock: count.wrapping_mul(100),
            };
            self.take(time_code, RECORDS_ROOM).map(drop)?;
        }
        Ok(())
    }

    fn times_at_bounds(&mut self) -> Outcome<()> {
        let plan = plans::each_slot(&mut self.random);
        for times in times::at_bounds() {
            self.load([&plan[..], &times.field()].concat())?;
            self.step()?;
        }
        Ok(())
    }

    fn all_sheets(&mut self, count: u64) -> Outcome<()> {
        for sheet in sheets::at_bounds() {
            self.sheet(sheet)?;
        }
        for _ in 0..count {
            let sheet = sheets::random(&mut self.random);
            self.sheet(sheet)?;
        }
        Ok(())
    }

    fn sheet(&mut self, sheet: Sheet) -> Outcome<()> {
        let accepted = same_sheet(&sheet).inspect_err(|_| self.call = format!("{sheet:?}"))?;
        self.tally.sheet(&sheet, accepted);
        Ok(())
    }

    fn load_accepted(&mut self) -> Outcome<()> {
        let file = plans::accepted(&mut self.random);
        self.load(file)?;
        self.tally.spoilt += u64::from(!self.actor.has_plan());
        Ok(())
    }

    fn load(&mut self, file: Vec<u8>) -> Outcome<()> {
        self.call = "load".to_owned();
        self.file = file;
        let verdict = self.both.load(&self.file)?;
        self.tally.verdict(verdict, &self.file);
        (self.actor, self.watcher) = match verdict[0] {
            0 => (Actor::under(&self.file), Watcher::under(&self.file)),
            _ => Default::default(),
        };
        self.starts = Starts::default();
        (self.moment, self.five_lent) = (Moment::Load, false);
        self.ask_all()?;
        self.turns()
    }

    fn clear(&mut self) -> Outcome<()> {
        self.call = "clear".to_owned();
        self.both.clear()?;
        self.tally.clears += 1;
        (self.actor, self.watcher, self.starts) = Default::default();
        (self.moment, self.five_lent) = (Moment::Clear, false);
        self.ask_all()?;
        self.turns()
    }

    fn lend(&mut self) -> Outcome<()> {
        let five = five(&mut self.random);
        self.call = format!("five numbers lent, {five:?}");
        self.both.lend(five);
        self.tally.lent += 1;
        (self.moment, self.five_lent) = (Moment::Lend, true);
        self.after()
    }

    fn step(&mut self) -> Outcome<()> {
        let event = self.actor.event(self.both.watchdog(), &mut self.random);
        let room = match self.random.below(20) {
            0 => self.random.below(RECORDS_ROOM + 1),
            _ => RECORDS_ROOM + self.random.below(30),
        };
        self.take(event, room).map(drop)
    }

    fn take(&mut self, event: Event, room: usize) -> Outcome<Answered> {
        self.call = format!("{event:?} with {room} bytes for records");
        let (answer, records) = self.both.step(event, room)?;
        self.tally.event(&answer, &records);
        if self.actor.has_replies() {
            let started = records.iter().filter(|one| one.kind == Record::STARTED);
            self.tally
                .started_with_replies(self.actor.has_times(), started.count());
        }
        self.tally
            .by_time(&self.watcher.take(&event, &answer, &records));
        if answer.is_ok() {
            self.actor.learn(&event, &records);
        }
        self.moment = Moment::Event;
        self.after()?;
        self.hold_to_turns(&event, &answer, &records)?;
        Ok(answer)
    }

    /// Holds what an event did against the next turn.
    fn hold_to_turns(
        &mut self,
        event: &Event,
        answer: &Answered,
        records: &[Record],
    ) -> Outcome<()> {
        match *event {
            Event::Request {
                initiator,
                target,
                length,
                ..
            } => {
                let slot = self.starts.last().unwrap_or(0);
                let turn = Turn {
                    initiator,
                    target,
                    length,
                    slot,
                };
                self.hold_request(turn, answer)
            }
            Event::TimeCode { byte, .. } if answer.is_ok() => {
                let kept = self.starts.time_code(byte, records)?;
                kept.into_iter()
                    .for_each(|count| self.tally.turns.kept(count));
                Ok(())
            }
            _ => Ok(()),
        }
    }

    /// A request is refused as its turn is, but for its kind and a full line. One that is taken is followed to its start.
    fn hold_request(&mut self, turn: Turn, answer: &Answered) -> Outcome<()> {
        const KIND: u8 = Refusal::UNKNOWN_KIND.number();
        const LINE: u8 = Refusal::LINE_FULL.number();
        let refused = match *answer {
            Err(KIND) => return Ok(()),
            Ok(_) | Err(LINE) => None,
            Err(number) => Some(number),
        };
        let named = self.turn(turn)?;
        same("refusal of a request and its turn", refused, named.err())?;
        if let (&Ok(Answer::Joined(transaction)), Ok(count)) = (answer, named) {
            self.starts.join(turn.initiator, transaction, count);
        }
        Ok(())
    }

    /// The next turn of a request, from a slot or from all.
    fn turns(&mut self) -> Outcome<()> {
        let turn = self.actor.turn(&mut self.random);
        self.turn(turn).map(drop)?;
        if self.random.chance(250) {
            for slot in 0..64 {
                self.turn(Turn { slot, ..turn }).map(drop)?;
            }
        }
        Ok(())
    }

    fn turn(&mut self, turn: Turn) -> Outcome<Turned> {
        let answer = self.both.next(turn);
        let answer = answer.inspect_err(|_| self.call = format!("{turn:?}"))?;
        let shown = match answer {
            Ok(count) => self.actor.entries().shown(turn, count),
            Err(_) => Vec::new(),
        };
        self.tally.turns.turn(turn, answer, &shown);
        Ok(answer)
    }

    /// Everything that can be asked, of the plan of the loaded file or of another.
    fn after(&mut self) -> Outcome<()> {
        let asked = Asked::mostly_loaded(&mut self.random);
        self.ask(asked)
    }

    /// The same of the loaded file and of each other.
    fn ask_all(&mut self) -> Outcome<()> {
        Asked::ALL
            .iter()
            .try_for_each(|&(asked, _)| self.ask(asked))
    }

    fn ask(&mut self, asked: Asked) -> Outcome<()> {
        let room = self.room();
        let (asked, file) = asked.file(&self.file, &mut self.random);
        let turn = self.actor.turn(&mut self.random);
        let question = Question {
            room,
            file: &file,
            turn,
        };
        let after = self.both.after(&question);
        let after = after.and_then(|after| self.hold_to_calls(asked, after));
        if after.is_err() {
            self.call += &format!(", then {asked:?} {file:02x?}");
        }
        let after = after?;
        let told = self.told_of(asked, &file, after);
        self.tally.written(after.written);
        self.tally.counter.told(told);
        Ok(())
    }

    /// Room for writing out.
    fn room(&mut self) -> usize {
        let size = self.file.len();
        let random = &mut self.random;
        match random.below(8) {
            0 => random.below(size + 1),
            1 => size.saturating_sub(1),
            2 => size,
            3 => WRITTEN_MOST,
            _ => size + random.below(20),
        }
    }

    /// Whether the box is blank, and holds the plan of a file, where the calls before say which it is.
    fn hold_to_calls(&self, asked: Asked, after: After) -> Outcome<After> {
        let has_plan = self.actor.has_plan();
        let blank = self.blank().is_blank();
        same("blank by the calls before", after.blank, blank)?;
        let holds = match has_plan {
            true => asked.is_held().unwrap_or(after.holds),
            false => false,
        };
        same("holds by the calls before", after.holds, holds)?;
        Ok(after)
    }

    fn blank(&self) -> Blank {
        let five = self.both.watchdog().into();
        Blank::of(self.moment, self.actor.has_plan(), five)
    }

    /// What the answers show of the box and of the file.
    fn told_of(&self, asked: Asked, file: &[u8], after: After) -> Told {
        let holds = Holds::of(after.holds, self.actor.has_plan(), after.accepted);
        let part = match holds {
            Holds::OtherPlan if asked != Asked::Other => {
                let plans = theirs::canonical(&self.file).zip(theirs::canonical(file));
                plans.and_then(|(one, other)| Part::between(&one, &other))
            }
            _ => None,
        };
        Told {
            blank: self.blank(),
            asked,
            holds,
            part,
            live: self.actor.has_live(),
            lent: self.five_lent,
        }
    }
}

/// A plan file, damaged or not, or noise.
fn any_file(random: &mut Random) -> Vec<u8> {
    if random.chance(50) {
        return noise(random);
    }
    let mut file = plans::plan(random);
    while random.chance(450) {
        file = damaged(&file, random);
    }
    file
}
