//! A line of the script that `replay` reads, as a command: words separated by one space, decimal numbers, bytes in lowercase hex.

use crate::sheet::Asked;
use crate::turns::{Question, Wanted};
use crate::ways::Routers;
use spwd::Latencies;

#[derive(Debug, PartialEq, Eq)]
pub enum Command {
    Load(Vec<u8>),
    Clear,
    TimeCode {
        byte: u8,
        clock: u32,
        room: usize,
    },
    Request {
        initiator: u8,
        target: u8,
        kind: u8,
        length: u16,
    },
    Reply {
        initiator: u8,
        transaction: u16,
        status: u8,
    },
    Reading {
        clock: u32,
    },
    Out {
        room: usize,
    },
    Watchdog,
    /// Last clock, seen, reported, least, greatest.
    SetWatchdog([u32; 5]),
    Sheet {
        asked: Asked,
        length: u16,
    },
    /// After one slot.
    Next(Question),
    Blank,
    /// A plan file.
    Holds(Vec<u8>),
}

#[derive(Debug, PartialEq, Eq)]
pub enum Line {
    /// An empty line, or one that begins with `#`.
    Skip,
    Command(Command),
    /// None of these, or a number out of its range.
    NoCommand,
}

/// The most bytes of a file that is loaded, of a record buffer, and of the room for writing out.
pub const FILE: usize = 16_400;
pub const BUFFER: usize = 4_096;
pub const ROOM: usize = 32_768;
/// The most bytes of a line, as for `replay`; the longest that can be needed, a `load` of `FILE` bytes, has half as many.
pub const LINE: usize = 65_535;

pub fn line_of(line: &[u8]) -> Line {
    match line.first() {
        None | Some(b'#') => Line::Skip,
        _ if line.len() > LINE => Line::NoCommand,
        _ => command_of(line).map_or(Line::NoCommand, Line::Command),
    }
}

fn command_of(line: &[u8]) -> Option<Command> {
    let mut words = line.split(|&byte| byte == b' ');
    let name = words.next()?;
    // Two spaces together have an empty word between them, and an empty word is no number.
    let rest: Vec<&[u8]> = words.collect();
    match (name, &rest[..]) {
        (b"load", [word]) => bytes(word).map(Command::Load),
        (b"clear", []) => Some(Command::Clear),
        (b"tc", [value, clock, room]) => Some(Command::TimeCode {
            byte: byte(value)?,
            clock: long(clock)?,
            room: size(room, BUFFER)?,
        }),
        (b"req", [initiator, target, kind, length]) => Some(Command::Request {
            initiator: byte(initiator)?,
            target: byte(target)?,
            kind: byte(kind)?,
            length: short(length)?,
        }),
        (b"rep", [initiator, transaction, status]) => Some(Command::Reply {
            initiator: byte(initiator)?,
            transaction: short(transaction)?,
            status: byte(status)?,
        }),
        (b"clk", [clock]) => long(clock).map(|clock| Command::Reading { clock }),
        (b"out", [room]) => size(room, ROOM).map(|room| Command::Out { room }),
        (b"wd", []) => Some(Command::Watchdog),
        (b"setwd", [last, seen, reported, least, greatest]) => Some(Command::SetWatchdog([
            long(last)?,
            long(seen)?,
            long(reported)?,
            long(least)?,
            long(greatest)?,
        ])),
        (b"sheet", [routers, rest @ ..]) => sheet(Routers::both(byte(routers)?), rest),
        (b"sheet2", [command, reply, rest @ ..]) => {
            let (command, reply) = (byte(command)?, byte(reply)?);
            sheet(Routers { command, reply }, rest)
        }
        (b"next", [initiator, target, length, slot]) => Some(Command::Next(Question {
            wanted: Wanted {
                initiator: byte(initiator)?,
                target: byte(target)?,
                length: short(length)?,
            },
            slot: Some(byte(slot)?),
        })),
        (b"blank", []) => Some(Command::Blank),
        (b"holds", [word]) => bytes(word).map(Command::Holds),
        _ => None,
    }
}

/// The sheet of these routers: rate, length and latencies.
fn sheet(routers: Routers, words: &[&[u8]]) -> Option<Command> {
    let [rate, length, latencies @ ..] = words else {
        return None;
    };
    let asked = Asked {
        routers,
        rate: short(rate)?,
        latencies: four(latencies)?,
    };
    let length = short(length)?;
    Some(Command::Sheet { asked, length })
}

/// Decimal digits, at least one; leading zeros are allowed.
fn number(word: &[u8], most: u32) -> Option<u32> {
    if word.is_empty() {
        return None;
    }
    let mut number: u64 = 0;
    for digit in word {
        if !digit.is_ascii_digit() {
            return None;
        }
        number = 10 * number + u64::from(digit - b'0');
        if number > most.into() {
            return None;
        }
    }
    u32::try_from(number).ok()
}

fn byte(word: &[u8]) -> Option<u8> {
    number(word, 255)?.try_into().ok()
}

fn short(word: &[u8]) -> Option<u16> {
    number(word, 65_535)?.try_into().ok()
}

fn long(word: &[u8]) -> Option<u32> {
    number(word, u32::MAX)
}

fn four(words: &[&[u8]]) -> Option<Latencies> {
    let [a, d, f, g] = words else {
        return None;
    };
    Some(Latencies {
        a: long(a)?,
        d: long(d)?,
        f: long(f)?,
        g: long(g)?,
    })
}

fn size(word: &[u8], most: usize) -> Option<usize> {
    number(word, most as u32)?.try_into().ok()
}

/// Lowercase hex, or `-` for no byte.
fn bytes(word: &[u8]) -> Option<Vec<u8>> {
    if word == b"-" {
        return Some(Vec::new());
    }
    if word.is_empty() || word.len() > 2 * FILE || word.len() % 2 != 0 {
        return None;
    }
    let pairs = word.chunks(2);
    pairs
        .map(|pair| Some(16 * digit(pair[0])? + digit(pair[1])?))
        .collect()
}

fn digit(digit: u8) -> Option<u8> {
    match digit {
        b'0'..=b'9' => Some(digit - b'0'),
        b'a'..=b'f' => Some(digit - b'a' + 10),
        _ => None,
    }
}
