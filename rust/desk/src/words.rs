//! The words of docs/CARD.md for verdicts, refusals and records, as the wrapper has them, and for the terms of a sheet; and the short ones of
//! a panel. tests/card.rs holds them against the card.

use crate::ways::Routers;
use spwd::words::UNKNOWN;
pub use spwd::words::{record, refusal, verdict, Row, RECORDS, REFUSALS, VERDICTS};
use spwd::{Record, Refusal, ERROR, READ, SUCCESS, WRITE};

/// What a row of the card says to do.
pub trait Advice {
    /// As it stands below what it is about.
    fn advice(&self) -> String;
}

impl Advice for Row {
    fn advice(&self) -> String {
        format!("    to do: {}", self.to_do)
    }
}

/// The terms of a sheet by their letters, as source document 000 lists them.
pub const TERMS: [(char, &str); 9] = [
    ('a', "time-code to the start of the command"),
    ('b', "the command through the routers"),
    ('c', "sending the command's header"),
    ('d', "the target authorises the command"),
    ('e', "sending the data and its CRC"),
    ('f', "data between link and memory"),
    ('g', "last data to the start of the reply"),
    ('h', "the reply through the routers"),
    ('i', "sending the reply"),
];

/// What was refused, with the number and the words for it.
pub fn refused(what: &str, refused: Refusal) -> String {
    let row = refusal(refused.number());
    format!("{what}: {refused}: {}", row.means)
}

/// What a panel says of a record.
pub fn record_on_panel(record: &Record) -> String {
    let initiator = record.initiator;
    let transaction = transaction(record.transaction, record.target, record.length);
    match record.kind {
        Record::EARLY => "time-code early".to_string(),
        Record::LATE => "time-code late".to_string(),
        Record::OUT_OF_SEQUENCE => "time-code out of sequence".to_string(),
        Record::TRANSACTION_LATE => format!("late: initiator {initiator} {transaction}"),
        Record::STARTED => format!("initiator {initiator} starts {transaction}"),
        Record::STILL_LIVE => {
            format!("not started: initiator {initiator} still has {transaction}")
        }
        kind => format!("a record of kind {kind}: {}", UNKNOWN.means),
    }
}

/// A transaction by its number, target and length.
pub fn transaction(number: u16, target: u8, length: u16) -> String {
    format!("number {number} to target {target}, {}", bytes(length))
}

pub fn bytes(length: u16) -> String {
    match length {
        1 => "1 byte".to_string(),
        _ => format!("{length} bytes"),
    }
}

/// "1 router"; "1 router out, 2 back" where the reply has another number of them.
pub fn routers(routers: Routers) -> String {
    let Routers { command, reply } = routers;
    let plural = if command == 1 { "" } else { "s" };
    if command == reply {
        format!("{command} router{plural}")
    } else {
        format!("{command} router{plural} out, {reply} back")
    }
}

/// The class of a reply's status.
pub fn class(class: u8) -> &'static str {
    match class {
        SUCCESS => "success",
        ERROR => "error",
        _ => "reserved",
    }
}

/// The kind of a request.
pub fn request_kind(kind: u8) -> String {
    match kind {
        READ => "read".to_string(),
        WRITE => "write".to_string(),
        _ => format!("kind {kind}"),
    }
}
