//! The time sheet of a transaction: source document 000, section 4, in nanoseconds.

use crate::raw;
use crate::verdict::Verdict;
use core::fmt;

/// The four latencies that hardware gives, in nanoseconds, by their letters.
#[derive(Clone, Copy, Debug, PartialEq, Eq, Default)]
pub struct Latencies {
    /// From the time-code to the start of the command.
    pub a: u32,
    /// The target authorises the command.
    pub d: u32,
    /// Data between link and memory, beyond the time to send it.
    pub f: u32,
    /// From the last data to the start of the reply.
    pub g: u32,
}

/// The time of a transaction and those of its terms that are worked out, in nanoseconds, by their letters.
#[derive(Clone, Copy, Debug, PartialEq, Eq, Default)]
pub struct Sheet {
    /// These five and the four [`Latencies`].
    pub total: u32,
    /// The command through the routers.
    pub b: u32,
    /// Sending the command's header.
    pub c: u32,
    /// Sending the data and its CRC.
    pub e: u32,
    /// The reply through the routers.
    pub h: u32,
    /// Sending the reply.
    pub i: u32,
}

/// Why a sheet was refused: one of its numbers is out of range.
#[must_use]
#[derive(Clone, Copy, Debug, PartialEq, Eq)]
pub struct SheetOutOfRange;

impl SheetOutOfRange {
    /// Document 01's number.
    pub const NUMBER: u32 = Verdict::OUT_OF_RANGE as u32;
}

impl fmt::Display for SheetOutOfRange {
    fn fmt(&self, formatter: &mut fmt::Formatter<'_>) -> fmt::Result {
        write!(formatter, "refused {}", Self::NUMBER)
    }
}

impl core::error::Error for SheetOutOfRange {}

/// How long one transaction takes whose reply goes back over the links of its command: over so many routers each way, which are the links
/// less one, at a rate in Mbit/s, with so many data bytes and these latencies. Every term is rounded up by itself.
///
/// ```
/// use spwd::{sheet, Latencies};
///
/// let latencies = Latencies { a: 5_000, d: 5_000, f: 5_000, g: 5_000 };
/// assert_eq!(sheet(4, 200, 256, latencies).unwrap().total, 39_450);
/// ```
///
/// # Errors
/// [`SheetOutOfRange`]: over [`ROUTERS_MOST`](crate::ROUTERS_MOST), a rate outside [`RATE_LEAST`](crate::RATE_LEAST) to
/// [`RATE_MOST`](crate::RATE_MOST), over [`LENGTH_MOST`](crate::LENGTH_MOST), or a latency over [`LATENCY_MOST`](crate::LATENCY_MOST).
pub fn sheet(
    routers: u8,
    rate: u16,
    length: u16,
    latencies: Latencies,
) -> Result<Sheet, SheetOutOfRange> {
    sheet2(routers, routers, rate, length, latencies)
}

/// The same for a reply with a way of its own: over so many routers on the command's way and so many on the reply's. Terms (b) and (c) go
/// by the command's routers, but for the reply address in (c); it and the terms (h) and (i) go by the reply's.
///
/// ```
/// use spwd::{sheet, sheet2, Latencies};
///
/// // Out over four routers; the reply comes home over two.
/// let latencies = Latencies { a: 5_000, d: 5_000, f: 5_000, g: 5_000 };
/// let home = sheet2(4, 2, 200, 256, latencies).unwrap();
/// assert_eq!((home.b, home.c, home.h, home.i), (2_400, 1_200, 1_200, 500));
/// assert_eq!(home.total, 38_150);
/// assert_eq!(sheet2(4, 4, 200, 256, latencies), sheet(4, 200, 256, latencies));
/// ```
///
/// # Errors
/// [`SheetOutOfRange`]: as for [`sheet()`], for the routers of either way.
pub fn sheet2(
    command_routers: u8,
    reply_routers: u8,
    rate: u16,
    length: u16,
    latencies: Latencies,
) -> Result<Sheet, SheetOutOfRange> {
    let Latencies { a, d, f, g } = latencies;
    let routers = [command_routers, reply_routers];
    let [number, terms @ ..] = raw::sheet(routers, rate, length, &[a, d, f, g]);
    if number != 0 {
        debug_assert_eq!((number, terms), (SheetOutOfRange::NUMBER, [0; 6]));
        return Err(SheetOutOfRange);
    }
    let [total, b, c, e, h, i] = terms;
    Ok(Sheet {
        total,
        b,
        c,
        e,
        h,
        i,
    })
}
