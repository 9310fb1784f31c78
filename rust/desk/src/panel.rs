//! A script played on the box.

use crate::happening::{Blank, Happening, Holds, Joined, Load, Refused, Wrong};
use crate::judge::{held, judge};
use crate::layout::{printable, shortened};
use crate::names::Names;
use crate::plan_file::plan_file;
use crate::script::Command;
use crate::streams::Status;
use crate::told::told;
use crate::turns::{Question, Wanted};
use crate::typed::{typed, Typed, Use};
use crate::waiting::Waiting;
use spwd::{records, Plan, Refusal, Spwd, Verdict, Watchdog};

/// A box and the line that its panel plays next.
pub struct Panel {
    desk: Spwd,
    waiting: Waiting,
    /// Whether the card's row follows what asks for something.
    card: bool,
    line: u64,
    wrong: bool,
    refused: bool,
}

impl Panel {
    /// The box is as after a clear.
    pub fn new(card: bool) -> Self {
        Self {
            desk: Spwd::new(),
            waiting: Waiting::default(),
            card,
            line: 0,
            wrong: false,
            refused: false,
        }
    }

    /// A line that is no command comes before a load that was refused. Refusals of events are answers.
    pub fn status(&self) -> Status {
        match (self.wrong, self.refused) {
            (true, _) => Status::Complaints,
            (_, true) => Status::Refused,
            _ => Status::Done,
        }
    }

    /// What the next line of the script makes happen, in words; nothing for a line that is skipped.
    pub fn play(&mut self, line: &[u8]) -> Vec<String> {
        let happening = self.happen(line);
        happening.map_or(Vec::new(), |happening| told(&happening, self.card))
    }

    /// The same as it is.
    pub fn happen(&mut self, line: &[u8]) -> Option<Happening> {
        self.line += 1;
        // Some editors put a byte order mark in front of the first.
        let mark = "\u{feff}".as_bytes();
        let line = match line.strip_prefix(mark) {
            Some(behind) if self.line == 1 => behind,
            _ => line,
        };
        Some(match typed(line) {
            Typed::Skip => return None,
            Typed::Command(command) => self.command(command),
            Typed::File(purpose, name) => match plan_file(&name) {
                Ok(source) => {
                    let (bytes, names) = (source.compiled.bytes, source.compiled.names);
                    match purpose {
                        Use::Load => self.load(&bytes, names, Some(name)),
                        Use::Holds => self.holds(&bytes),
                    }
                }
                Err(why) => self.wrong("not done", line, why),
            },
            Typed::Wrong(why) => self.wrong("not a command", line, why),
        })
    }

    fn wrong(&mut self, what: &'static str, line: &[u8], why: Vec<String>) -> Happening {
        self.wrong = true;
        Happening::Wrong(Wrong {
            line: self.line,
            what,
            text: shortened(&printable(line.trim_ascii()), 60),
            why,
        })
    }

    fn command(&mut self, command: Command) -> Happening {
        match command {
            Command::Load(file) => self.load(&file, Names::default(), None),
            Command::Clear => {
                self.desk.clear();
                Happening::Clear
            }
            Command::TimeCode { byte, clock, room } => self.time_code(byte, clock, room),
            Command::Request {
                initiator,
                target,
                kind,
                length,
            } => {
                let wanted = Wanted {
                    initiator,
                    target,
                    length,
                };
                self.request(wanted, kind)
            }
            Command::Reply {
                initiator,
                transaction,
                status,
            } => self.reply(initiator, transaction, status),
            Command::Reading { clock } => self.reading(clock),
            Command::Out { room } => Happening::Out(self.desk.write_out(&mut vec![0; room])),
            Command::Watchdog => Happening::Watchdog(self.desk.watchdog()),
            Command::SetWatchdog(five) => self.set_watchdog(Watchdog::from(five)),
            Command::Sheet { asked, length } => Happening::Sheet { asked, length },
            Command::Next(question) => self.next(question),
            Command::Blank => Happening::Blank(self.blank()),
            Command::Holds(file) => self.holds(&file),
        }
    }

    fn reply(&mut self, initiator: u8, transaction: u16, status: u8) -> Happening {
        Happening::Reply {
            initiator,
            transaction,
            answer: self.desk.reply(initiator, transaction, status),
        }
    }

    fn reading(&mut self, clock: u32) -> Happening {
        let answer = self.desk.reading(clock);
        Happening::Reading { clock, answer }
    }

    fn set_watchdog(&mut self, five: Watchdog) -> Happening {
        self.desk.set_watchdog(five);
        Happening::SetWatchdog(self.desk.watchdog())
    }

    fn load(&mut self, file: &[u8], names: Names, from: Option<String>) -> Happening {
        let verdict = Verdict::from(self.desk.load(file));
        self.waiting = Waiting::default();
        self.refused |= !verdict.is_accepted();
        Happening::Load(Load {
            verdict,
            held: held(&self.desk),
            names,
            file: from,
        })
    }

    fn time_code(&mut self, byte: u8, clock: u32, room: usize) -> Happening {
        let mut buffer = vec![0; room];
        let count = self.desk.time_code(byte, clock, &mut buffer);
        if let Ok(count) = count {
            let slot = byte % 64;
            self.waiting.time_code(slot, records(&buffer, count));
        }
        Happening::TimeCode {
            byte,
            clock,
            answer: count.map(|count| records(&buffer, count).collect()),
        }
    }

    fn request(&mut self, wanted: Wanted, kind: u8) -> Happening {
        let Wanted {
            initiator,
            target,
            length,
        } = wanted;
        let answer = match self.desk.request(initiator, target, kind, length) {
            Ok(transaction) => Ok(Joined {
                transaction,
                start: self.start(&wanted),
            }),
            Err(refusal) => Err(self.refused(&wanted, refusal)),
        };
        Happening::Request {
            wanted,
            kind,
            answer,
        }
    }

    /// Where a request starts that was just accepted; nothing where that is not known.
    fn start(&mut self, wanted: &Wanted) -> Option<(u8, u8)> {
        let slot = self.waiting.request(wanted.initiator)?;
        let count = wanted.next(&self.desk, slot).ok()?;
        Some((slot, count))
    }

    fn refused(&self, wanted: &Wanted, refusal: Refusal) -> Refused {
        let why = wanted.why(refusal, &self.desk);
        Refused { refusal, why }
    }

    fn next(&self, question: Question) -> Happening {
        let answer = question.answer(&self.desk);
        Happening::Next {
            question,
            answer: answer.map_err(|refusal| self.refused(&question.wanted, refusal)),
        }
    }

    fn blank(&self) -> Blank {
        if self.desk.is_blank() {
            return Blank::Yes;
        }
        Blank::No {
            held: held(&self.desk),
            five: self.desk.watchdog(),
        }
    }

    /// The file's own verdict is asked of another box.
    fn holds(&self, file: &[u8]) -> Happening {
        let own = held(&self.desk);
        let judged = judge(file);
        Happening::Holds(if self.desk.holds(file, &mut Plan::new()) {
            Holds::Yes(own)
        } else if !judged.verdict.is_accepted() {
            Holds::Refused(judged.verdict)
        } else if own.is_empty() {
            Holds::NoPlan
        } else {
            Holds::Other([own, judged.held])
        })
    }
}
