//! What a line of a script made happen, as the box answered it: the panel's words are made of this, and so is its page.

use crate::names::Names;
use crate::sheet::Asked;
use crate::turns::{Question, Wanted};
use spwd::{Ended, Record, Refusal, Verdict, Watchdog};

#[derive(Debug)]
pub enum Happening {
    Wrong(Wrong),
    Load(Load),
    Clear,
    TimeCode {
        byte: u8,
        clock: u32,
        answer: Result<Vec<Record>, Refusal>,
    },
    Request {
        wanted: Wanted,
        kind: u8,
        answer: Result<Joined, Refused>,
    },
    Reply {
        initiator: u8,
        transaction: u16,
        answer: Result<Ended, Refusal>,
    },
    /// Whether lateness is reported.
    Reading {
        clock: u32,
        answer: Result<bool, Refusal>,
    },
    /// The size of the plan that was written out.
    Out(Result<usize, Refusal>),
    Watchdog(Watchdog),
    SetWatchdog(Watchdog),
    Sheet {
        asked: Asked,
        length: u16,
    },
    /// The answer in words.
    Next {
        question: Question,
        answer: Result<Vec<String>, Refused>,
    },
    Blank(Blank),
    Holds(Holds),
}

/// A line that changed nothing: it is no command, or its file cannot be had.
#[derive(Debug)]
pub struct Wrong {
    /// Counted from 1.
    pub line: u64,
    pub what: &'static str,
    pub text: String,
    /// What is wrong, and what would be right.
    pub why: Vec<String>,
}

#[derive(Debug)]
pub struct Load {
    pub verdict: Verdict,
    /// The plan as the box holds it, written out; nothing if it was refused.
    pub held: Vec<u8>,
    /// Of the devices, where the text of a plan was loaded.
    pub names: Names,
    /// Where it was loaded from, if it was a file.
    pub file: Option<String>,
}

/// A request in its line.
#[derive(Debug)]
pub struct Joined {
    pub transaction: u16,
    /// The slot that its start is counted from and how many slots on it is, where that is known.
    pub start: Option<(u8, u8)>,
}

/// A refusal, and where the plan's times are the reason, these.
#[derive(Debug)]
pub struct Refused {
    pub refusal: Refusal,
    pub why: Option<String>,
}

#[derive(Debug)]
pub enum Blank {
    Yes,
    /// The plan that is in the box, written out; nothing if there is none, and the five numbers alone are not those of a clear.
    No {
        held: Vec<u8>,
        five: Watchdog,
    },
}

#[derive(Debug)]
pub enum Holds {
    /// The plan, written out.
    Yes(Vec<u8>),
    NoPlan,
    /// No box can hold it.
    Refused(Verdict),
    /// The box's plan and the file's, written out.
    Other([Vec<u8>; 2]),
}
