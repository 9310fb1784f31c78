//! The transaction time sheet: how long a transaction takes, in nanoseconds. The letters are those
//! of section 4 of source document 000.

use crate::verdict::Fault;
use core::ops::RangeInclusive;

/// Data bytes of a transaction at most.
pub(crate) const LENGTH: u16 = 4_096;
/// Routers on the longest path, which has eight links.
pub(crate) const ROUTERS: u8 = 7;
/// The ten bits of a byte at 1 Mbit/s.
pub(crate) const BYTE: u32 = 10_000;
const ROUTER: u32 = 600;

const RATES: RangeInclusive<u16> = 2..=400;
const LONGEST: u32 = 1_000_000;

/// The given times: to the start of the command, for authorising it, for moving its data, and to the
/// start of the reply.
#[derive(Clone, Copy, Debug, Default, PartialEq, Eq)]
pub struct Latencies {
    pub a: u32,
    pub d: u32,
    pub f: u32,
    pub g: u32,
}

/// The times that are worked out, and the sum of all nine.
#[derive(Clone, Copy, Debug, Default, PartialEq, Eq)]
pub struct Sheet {
    pub total: u32,
    /// The command through the routers on its way.
    pub b: u32,
    /// Sending the command's header.
    pub c: u32,
    /// Sending the data and its CRC.
    pub e: u32,
    /// The reply through the routers on its way.
    pub h: u32,
    /// Sending the reply.
    pub i: u32,
}

/// The sheet of a transaction with this many routers on each way, at a rate in Mbit/s and with so
/// many data bytes; a number out of range is fault 6.
pub fn sheet(
    command_routers: u8,
    reply_routers: u8,
    rate: u16,
    length: u16,
    latencies: Latencies,
) -> Result<Sheet, Fault> {
    let Latencies { a, d, f, g } = latencies;
    if command_routers.max(reply_routers) > ROUTERS
        || length > LENGTH
        || !in_range(rate, &[a, d, f, g])
    {
        return Err(Fault::Range);
    }
    Ok(Sheet::new(
        command_routers,
        reply_routers,
        rate,
        length,
        latencies,
    ))
}

/// Whether field 06 and the sheet by itself may have this rate and these times.
pub(crate) fn in_range(rate: u16, times: &[u32]) -> bool {
    RATES.contains(&rate) && times.iter().all(|&time| time <= LONGEST)
}

impl Sheet {
    /// Of numbers in range.
    pub(crate) fn new(
        command_routers: u8,
        reply_routers: u8,
        rate: u16,
        length: u16,
        latencies: Latencies,
    ) -> Self {
        let Latencies { a, d, f, g } = latencies;
        let (command, reply) = (u32::from(command_routers), u32::from(reply_routers));
        let b = ROUTER * command;
        // The reply's address stands in the header in whole groups of four bytes.
        let c = sending(command + 16 + reply.next_multiple_of(4), rate);
        let e = sending(u32::from(length) + 1, rate);
        let h = ROUTER * reply;
        let i = sending(reply + 8, rate);
        Self {
            total: a + b + c + d + e + f + g + h + i,
            b,
            c,
            e,
            h,
            i,
        }
    }
}

fn sending(bytes: u32, rate: u16) -> u32 {
    (BYTE * bytes).div_ceil(rate.into())
}
