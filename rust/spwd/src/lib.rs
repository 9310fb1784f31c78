//! The SpaceWire-D initiator box in safe Rust.
//!
//! One box is one [`Spwd`], with all its memory inside: no heap, no statics. It reads a plan file and judges it, takes time-codes,
//! requests, replies and clock readings, writes records and the plan, says when the next turn is, and can be cleared. What decides is
//! the proved library (`crates/spwd_c`, linked as `libspwd_c.a`); here its numbers get names and types, and nothing else happens.
//!
//! Numbers are those of document 01; `docs/CARD.md` says of each what it means and what to do, and [`words`] has its words. Whatever can be refused answers a
//! [`Result`]: a load the [`Counts`] of the plan or the [`Fault`] of the file, events, the next turn and writing out what they have to say
//! or a [`Refusal`], and [`sheet()`] and [`sheet2()`], which ask no box, the time of a transaction or that a number is out of range.
//!
//! An [`Image`] is the memory of some box as bytes, as a jig reads it back: whether it is blank, and whether it holds a plan, may be asked of
//! any.
//!
//! ```
//! use spwd::{records, Counts, Record, Spwd, READ, RECORDS_ROOM};
//!
//! // One link between nodes 1 and 2, and 1 may start to 2 in slot 5.
//! let plan = [
//!     1, 0, 2, 1, 0, 1, 0, 2, 2, 0, 2, 0, 3, 0, 1, 2, 3, 0, 3, 1, 2, 0, 4, 0, 4, 1, 5, 1, 2,
//!     5, 0, 8, 0, 0, 0, 90, 0, 0, 0, 110,
//! ];
//! let mut spwd = Spwd::new();
//! let counts = spwd.load(&plan).unwrap();
//! assert_eq!(counts, Counts { devices: 2, links: 1, paths: 1, entries: 1 });
//! assert_eq!(spwd.request(1, 2, READ, 100), Ok(0));
//!
//! let mut buffer = [0; RECORDS_ROOM];
//! let count = spwd.time_code(5, 1_000, &mut buffer).unwrap();
//! let started = records(&buffer, count).next().unwrap();
//! assert_eq!((started.kind, started.target, started.length), (Record::STARTED, 2, 100));
//! ```
#![no_std]

mod card;
mod event;
mod image;
mod plan;
#[allow(unsafe_code)]
mod raw;
mod record;
mod refusal;
mod sheet;
mod spwd;
mod verdict;
mod watchdog;
pub mod words;

pub use event::{Answer, Ended, Event, ERROR, READ, RESERVED, SUCCESS, WRITE};
pub use image::{Array, Image, IMAGE_SIZE};
pub use plan::Plan;
pub use record::{records, Record, Records};
pub use refusal::Refusal;
pub use sheet::{sheet, sheet2, Latencies, Sheet, SheetOutOfRange};
pub use spwd::Spwd;
pub use verdict::{Counts, Fault, Line, Verdict};
pub use watchdog::Watchdog;

/// The version of the interface that this crate is written for; `SPWD_VERSION` of `c/spwd.h`.
pub const VERSION: u32 = 5;

/// Bytes of the longest plan file that is not refused for its length alone.
pub const FILE_MOST: usize = 16_384;
/// Bytes of the longest plan written out: room that is always enough.
pub const WRITTEN_MOST: usize = 16_384;
/// Bytes of a record.
pub const RECORD_SIZE: usize = 8;
/// How many records a time-code writes at most.
pub const RECORDS_MOST: usize = 17;
/// The least record buffer that a time-code takes.
pub const RECORDS_ROOM: usize = RECORD_SIZE * RECORDS_MOST;
/// Bytes of the buffer for a printed verdict.
pub const LINE_ROOM: usize = 40;
/// Slots of a table.
pub const SLOTS: u8 = 64;
/// How many initiators a plan has at most.
pub const INITIATORS_MOST: usize = 8;
/// How many paths, and as many replies: one for each path at most.
pub const PATHS_MOST: usize = 128;
/// How many requests of an initiator wait at most.
pub const WAITING_MOST: usize = 8;
/// Data bytes of a request at most, and of a sheet.
pub const LENGTH_MOST: u16 = 4_096;
/// Routers of a path or a reply at most, and of each way of a sheet.
pub const ROUTERS_MOST: u8 = 7;
/// Mbit/s of a sheet at least, and of a plan's times.
pub const RATE_LEAST: u16 = 2;
/// Mbit/s of a sheet at most, and of a plan's times.
pub const RATE_MOST: u16 = 400;
/// Nanoseconds of each latency at most, of a sheet and of a plan's times.
pub const LATENCY_MOST: u32 = 1_000_000;
/// Nanoseconds of a slot at most, in a plan's times.
pub const SLOT_LENGTH_MOST: u32 = 1_000_000;

/// The version of the archive that is linked.
pub fn version() -> u32 {
    raw::version()
}

/// Whether the archive has the version that this crate is written for. If not, nothing else here may be called. A load asks it too
/// where debug assertions are on.
#[must_use]
pub fn version_fits() -> bool {
    version() == VERSION
}
