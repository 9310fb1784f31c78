//! Runs a script of commands from standard input, one a line, and prints one line for each.
#![forbid(unsafe_code)]

use reference::{
    print_verdict, sheet, Answer, Event, Fault, Latencies, Sheet, Unit, Watchdog, LINE,
};
use std::io::{self, BufRead, BufReader, Write};

const FILE: usize = 16_400;
const BUFFER: usize = 4_096;
const ROOM: usize = 32_768;
const CHUNK: usize = 1 << 16;

fn main() -> io::Result<()> {
    let mut input = BufReader::with_capacity(CHUNK, io::stdin().lock());
    let mut output = io::stdout().lock();
    let mut replay = Replay::new();
    let mut line = Vec::new();
    for number in 1u64.. {
        line.clear();
        if input.read_until(b'\n', &mut line)? == 0 {
            break;
        }
        if line.last() == Some(&b'\n') {
            line.pop();
        }
        replay.line(&line, number);
        // Whoever waits for an answer before the next command gets it.
        if input.buffer().is_empty() || replay.out.len() > CHUNK {
            output.write_all(&replay.out)?;
            output.flush()?;
            replay.out.clear();
        }
    }
    output.write_all(&replay.out)?;
    output.flush()
}

enum Command {
    /// The bytes of both are in the replay's own buffer.
    Load,
    Holds,
    Blank,
    Clear,
    Event {
        event: Event,
        buffer: usize,
    },
    WriteOut {
        room: usize,
    },
    Watchdog,
    SetWatchdog(Watchdog),
    Sheet(Result<Sheet, Fault>),
    Next {
        initiator: u8,
        target: u8,
        length: u16,
        slot: u8,
    },
}

struct Replay {
    unit: Unit,
    watchdog: Watchdog,
    file: Vec<u8>,
    /// A box beside the unit, for the plan of a file that is asked about.
    other: Unit,
    buffer: [u8; BUFFER],
    room: [u8; ROOM],
    out: Vec<u8>,
}

impl Replay {
    fn new() -> Self {
        Self {
            unit: Unit::new(),
            watchdog: Watchdog::new(),
            file: Vec::with_capacity(FILE),
            other: Unit::new(),
            buffer: [0; BUFFER],
            room: [0; ROOM],
            out: Vec::with_capacity(2 * CHUNK),
        }
    }

    fn line(&mut self, line: &[u8], number: u64) {
        if line.is_empty() || line[0] == b'#' {
            return;
        }
        match self.command(line) {
            Some(command) => self.run(command),
            None => {
                self.out.extend_from_slice(b"ERROR line ");
                self.decimal(number);
            }
        }
        self.out.push(b'\n');
    }

    /// None if the line is no command.
    fn command(&mut self, line: &[u8]) -> Option<Command> {
        let mut words = Words(line.split(|&byte| byte == b' '));
        let command = match words.next()? {
            b"load" => {
                self.decode(words.next()?)?;
                Command::Load
            }
            b"holds" => {
                self.decode(words.next()?)?;
                Command::Holds
            }
            b"blank" => Command::Blank,
            b"clear" => Command::Clear,
            b"tc" => Command::Event {
                event: Event::TimeCode {
                    byte: words.byte()?,
                    clock: words.long()?,
                },
                buffer: words.size(BUFFER)?,
            },
            b"req" => event(Event::Request {
                initiator: words.byte()?,
                target: words.byte()?,
                kind: words.byte()?,
                length: words.short()?,
            }),
            b"rep" => event(Event::Reply {
                initiator: words.byte()?,
                number: words.short()?,
                status: words.byte()?,
            }),
            b"clk" => event(Event::Reading {
                clock: words.long()?,
            }),
            b"out" => Command::WriteOut {
                room: words.size(ROOM)?,
            },
            b"wd" => Command::Watchdog,
            b"setwd" => Command::SetWatchdog(Watchdog {
                last: words.long()?,
                seen: words.long()?,
                reported: words.long()?,
                least: words.long()?,
                greatest: words.long()?,
            }),
            b"sheet" => Command::Sheet(words.sheet()?),
            b"sheet2" => Command::Sheet(words.sheet2()?),
            b"next" => Command::Next {
                initiator: words.byte()?,
                target: words.byte()?,
                length: words.short()?,
                slot: words.byte()?,
            },
            _ => return None,
        };
        words.next().is_none().then_some(command)
    }

    fn run(&mut self, command: Command) {
        match command {
            Command::Load => self.load(),
            Command::Holds => {
                let holds = self.unit.holds(&self.file, &mut self.other);
                self.numbers(&[holds.into()]);
            }
            Command::Blank => {
                let blank = self.unit.is_blank(&self.watchdog);
                self.numbers(&[blank.into()]);
            }
            Command::Clear => {
                self.unit.clear(&mut self.watchdog);
                self.out.extend_from_slice(b"CLEARED");
            }
            Command::Event { event, buffer } => self.event(event, buffer),
            Command::WriteOut { room } => {
                let (number, size) = self.unit.write_out(&mut self.room[..room]);
                self.numbers(&[number.into(), size as u32]);
                self.out.push(b' ');
                hex(&self.room[..size], &mut self.out);
            }
            Command::Watchdog => self.print_watchdog(),
            Command::SetWatchdog(watchdog) => {
                self.watchdog = watchdog;
                self.out.extend_from_slice(b"OK");
            }
            Command::Sheet(Ok(sheet)) => self.numbers(&[0, sheet.total]),
            Command::Sheet(Err(fault)) => self.numbers(&[fault as u32, 0]),
            Command::Next {
                initiator,
                target,
                length,
                slot,
            } => {
                let (number, count) = self.unit.next(initiator, target, length, slot);
                self.numbers(&[number.into(), count.into()]);
            }
        }
    }

    fn load(&mut self) {
        let verdict = self.unit.load(&self.file, &mut self.watchdog);
        let mut line = [0; LINE];
        let size = print_verdict(&verdict, &mut line);
        self.out.extend_from_slice(&line[..size - 1]);
    }

    fn event(&mut self, event: Event, buffer: usize) {
        let buffer = &mut self.buffer[..buffer];
        let answer = self.unit.step(event, &mut self.watchdog, buffer);
        let number = answer.number().into();
        match answer {
            Answer::Records { count } => self.print_records(count),
            Answer::Taken { number: taken } => self.numbers(&[number, taken.into()]),
            Answer::Ended {
                target,
                length,
                status,
                class,
            } => self.numbers(&[
                number,
                target.into(),
                length.into(),
                status.into(),
                class.into(),
            ]),
            Answer::Reading { late } => self.numbers(&[number, late.into()]),
            Answer::Refused(_) => {
                self.decimal(number.into());
                self.out.extend_from_slice(match event {
                    Event::TimeCode { .. } => b" 0 -",
                    Event::Request { .. } | Event::Reading { .. } => b" 0",
                    Event::Reply { .. } => b" 0 0 0 0",
                });
            }
        }
    }

    fn print_records(&mut self, count: u8) {
        self.numbers(&[0, count.into()]);
        self.out.push(b' ');
        hex(&self.buffer[..8 * usize::from(count)], &mut self.out);
    }

    fn print_watchdog(&mut self) {
        let Watchdog {
            last,
            seen,
            reported,
            least,
            greatest,
        } = self.watchdog;
        let (seen, reported) = ((seen != 0).into(), (reported != 0).into());
        self.numbers(&[last, seen, reported, least, greatest]);
    }

    /// Fills the file from hex digits; none if they are no byte string or one too long.
    fn decode(&mut self, digits: &[u8]) -> Option<()> {
        self.file.clear();
        if digits == b"-" {
            return Some(());
        }
        let pairs = digits.chunks_exact(2);
        if !(1..=FILE).contains(&pairs.len()) || !pairs.remainder().is_empty() {
            return None;
        }
        let mut wrong = 0;
        self.file.extend(pairs.map(|pair| {
            let (high, low) = (DIGITS[usize::from(pair[0])], DIGITS[usize::from(pair[1])]);
            wrong |= high | low;
            high << 4 | low
        }));
        (wrong < 16).then_some(())
    }

    fn numbers(&mut self, numbers: &[u32]) {
        for (index, &number) in numbers.iter().enumerate() {
            if index > 0 {
                self.out.push(b' ');
            }
            self.decimal(number.into());
        }
    }

    fn decimal(&mut self, number: u64) {
        let mut digits = [0; 20];
        let mut first = digits.len();
        let mut rest = number;
        loop {
            first -= 1;
            digits[first] = b'0' + (rest % 10) as u8;
            rest /= 10;
            if rest == 0 {
                break;
            }
        }
        self.out.extend_from_slice(&digits[first..]);
    }
}

fn event(event: Event) -> Command {
    Command::Event { event, buffer: 0 }
}

/// The words of a line; two spaces together make an empty word, which is never a number.
struct Words<I>(I);

impl<'a, I: Iterator<Item = &'a [u8]>> Words<I> {
    fn next(&mut self) -> Option<&'a [u8]> {
        self.0.next()
    }

    fn number(&mut self, greatest: u32) -> Option<u32> {
        let word = self.next()?;
        if word.is_empty() {
            return None;
        }
        let mut number = 0u64;
        for &digit in word {
            if !digit.is_ascii_digit() {
                return None;
            }
            number = 10 * number + u64::from(digit - b'0');
            if number > greatest.into() {
                return None;
            }
        }
        u32::try_from(number).ok()
    }

    fn byte(&mut self) -> Option<u8> {
        self.number(u8::MAX.into())?.try_into().ok()
    }

    fn short(&mut self) -> Option<u16> {
        self.number(u16::MAX.into())?.try_into().ok()
    }

    fn long(&mut self) -> Option<u32> {
        self.number(u32::MAX)
    }

    fn size(&mut self, greatest: usize) -> Option<usize> {
        self.number(greatest as u32)?.try_into().ok()
    }

    fn sheet(&mut self) -> Option<Result<Sheet, Fault>> {
        let routers = self.byte()?;
        self.sheet_over(routers, routers)
    }

    fn sheet2(&mut self) -> Option<Result<Sheet, Fault>> {
        let (command_routers, reply_routers) = (self.byte()?, self.byte()?);
        self.sheet_over(command_routers, reply_routers)
    }

    fn sheet_over(
        &mut self,
        command_routers: u8,
        reply_routers: u8,
    ) -> Option<Result<Sheet, Fault>> {
        let (rate, length) = (self.short()?, self.short()?);
        let latencies = Latencies {
            a: self.long()?,
            d: self.long()?,
            f: self.long()?,
            g: self.long()?,
        };
        Some(sheet(
            command_routers,
            reply_routers,
            rate,
            length,
            latencies,
        ))
    }
}

/// The value of each lowercase hex digit, 255 for every other byte.
const DIGITS: [u8; 256] = {
    let mut digits = [255; 256];
    let mut value = 0;
    while value < 16 {
        digits[HEX[value] as usize] = value as u8;
        value += 1;
    }
    digits
};

const HEX: &[u8; 16] = b"0123456789abcdef";

fn hex(bytes: &[u8], out: &mut Vec<u8>) {
    if bytes.is_empty() {
        out.push(b'-');
    }
    out.extend(
        bytes
            .iter()
            .flat_map(|&byte| [HEX[usize::from(byte >> 4)], HEX[usize::from(byte & 15)]]),
    );
}
