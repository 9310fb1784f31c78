//! What is drawn of a run: sections between loads and clears, columns from time-code to time-code, a lane for each initiator.

use crate::happening::Wrong;
use crate::names::Names;

/// The most time-codes that are drawn of a run, sections, lines that are listed of a section, and lines that are no command.
pub const TIME_CODES: usize = 2_000;
pub const SECTIONS: usize = 200;
pub const SAID: usize = 100;
pub const WRONG: usize = 20;

/// What happened since a load or a clear.
#[derive(Debug, Default)]
pub struct Section {
    pub cut: Cut,
    /// The initiators of the plan, rising.
    pub lanes: Vec<u8>,
    pub names: Names,
    pub columns: Vec<Column>,
    pub bars: Vec<Bar>,
    /// What asks for something, or was asked, in order; and how much more there was.
    pub said: Vec<Said>,
    pub unsaid: u64,
    /// Of the whole section, and of what is not drawn of it.
    pub counts: Counts,
    pub left_out: Counts,
}

/// How a section began.
#[derive(Debug, Default)]
pub enum Cut {
    /// As after a clear.
    #[default]
    Begin,
    Load {
        /// Counted from 1.
        number: u64,
        accepted: bool,
        /// In words, with the printed line first.
        verdict: String,
        /// Of an accepted plan.
        fingerprint: Option<String>,
        file: Option<String>,
    },
    Clear,
}

/// What happened from a time-code on, or before the first of a section.
#[derive(Debug)]
pub struct Column {
    pub time_code: Option<TimeCode>,
    /// How many wait in each lane when it begins, and who joins them before the next.
    pub waiting: Vec<u64>,
    pub joined: Vec<Joined>,
    pub events: Vec<Event>,
}

#[derive(Debug)]
pub struct TimeCode {
    /// Counted from 1 in its section.
    pub number: u64,
    pub slot: u8,
    pub clock: u32,
    pub early: bool,
    pub late: bool,
    pub out_of_sequence: bool,
    /// Lanes and transactions that stand in the way of a start.
    pub not_started: Vec<(usize, u16)>,
}

/// A request that joined its line.
#[derive(Debug)]
pub struct Joined {
    pub lane: usize,
    pub transaction: u16,
    pub words: String,
}

/// What else happens between time-codes, in its order.
#[derive(Debug, PartialEq, Eq)]
pub enum Event {
    /// The end of a bar of this lane.
    Reply(usize),
    /// A clock reading reports lateness.
    Reported,
    /// Several of one kind stand where the first does. Of an initiator that the plan does not have there is no lane.
    Refused {
        lane: Option<usize>,
        what: What,
        number: u8,
        count: u64,
    },
}

impl Event {
    /// Where it is drawn.
    pub fn track(&self) -> Track {
        match *self {
            Self::Reply(lane) => Track::Bar(lane),
            Self::Refused {
                lane: Some(lane), ..
            } => Track::Below(lane),
            Self::Reported | Self::Refused { lane: None, .. } => Track::Box,
        }
    }
}

/// A line of marks: on the bar of a lane, below it, or above all lanes.
#[derive(Clone, Copy, Debug, PartialEq, Eq)]
pub enum Track {
    Bar(usize),
    Below(usize),
    Box,
}

#[derive(Clone, Copy, Debug, PartialEq, Eq)]
pub enum What {
    TimeCode,
    Request,
    Reply,
    Reading,
}

/// A transaction from its start on.
#[derive(Debug)]
pub struct Bar {
    pub lane: usize,
    pub transaction: u16,
    pub target: u8,
    pub length: u16,
    /// The column that its start begins.
    pub from: usize,
    pub end: End,
}

#[derive(Debug)]
pub enum End {
    /// Under way at the end of what is drawn.
    Open,
    /// Reported late by the time-code of this column.
    Late(usize),
    /// By a reply, which is this event of a column.
    Replied {
        column: usize,
        event: usize,
        status: u8,
        class: u8,
    },
}

/// A line for people, and the time-code that it came with or after.
#[derive(Debug)]
pub struct Said {
    pub time_code: Option<(u64, u8)>,
    pub words: String,
}

/// How often what happened.
#[derive(Clone, Debug, Default, PartialEq, Eq)]
pub struct Counts {
    pub time_codes: u64,
    pub early: u64,
    pub late_time_codes: u64,
    pub out_of_sequence: u64,
    pub reported: u64,
    pub requests: u64,
    pub starts: u64,
    /// By class: success, error, reserved.
    pub replies: [u64; 3],
    pub late: u64,
    pub not_started: u64,
    pub refused: u64,
}

/// A whole run.
#[derive(Debug, Default)]
pub struct Chart {
    /// At least one.
    pub sections: Vec<Section>,
    /// Loads and clears behind the sections that are kept.
    pub more: u64,
    pub wrong: Vec<Wrong>,
    pub more_wrong: u64,
}
