//! The plan's tables. An initiator has a row in them; rows rise with the device number.

use crate::bits::{bit, Members};
use crate::event::Refusal;
use crate::sheet::{Latencies, Sheet, BYTE, LENGTH, ROUTERS};

pub(crate) const INITIATORS: usize = 8;
pub(crate) const NUMBERS: usize = 64;
pub(crate) const SLOTS: usize = 64;
pub(crate) const SPANS: usize = 16;
/// Data bytes that one slot carries where the plan has no times.
pub(crate) const SLOT_BYTES: u16 = 256;

/// Every number is 0 before any load.
#[derive(Clone, Debug, PartialEq, Eq)]
pub(crate) struct Plan {
    pub loaded: bool,
    /// Size of the plan written out.
    pub size: u16,
    pub least: u32,
    pub greatest: u32,
    pub times: Option<Times>,
    pub devices: u64,
    pub routers: u64,
    pub links: u64,
    /// For each link the two devices it joins.
    pub ends: [u64; NUMBERS],
    pub initiator_count: u8,
    pub initiators: [u8; INITIATORS],
    /// For each device 1 more than its row, 0 if it is no initiator.
    pub ranks: [u8; NUMBERS],
    /// For each row the targets it has a path to.
    pub reached: [u64; INITIATORS],
    /// For each row and target the links of the path.
    pub walks: [[Walk; NUMBERS]; INITIATORS],
    /// For each row the targets whose replies have a way of their own.
    pub replied: [u64; INITIATORS],
    /// For each row and target the links of that way, from the target back.
    pub replies: [[Walk; NUMBERS]; INITIATORS],
    /// For each row the slots at which an entry stands.
    pub slots: [u64; INITIATORS],
    /// For each slot and row the targets of the entry standing there.
    pub targets: [[u64; INITIATORS]; SLOTS],
    /// And its span with the number of its targets.
    pub shapes: [[Shape; INITIATORS]; SLOTS],
    /// For each row the spans, as n - 1, of its entries.
    pub spans: [u64; INITIATORS],
    /// For each span, at n - 1, and routers of both ways, if an entry has a target so far away, how
    /// many lengths fit, from 0 up.
    pub lengths: [Lengths; SPANS],
    /// For each row and target what a request reads.
    pub ways: [[Way; NUMBERS]; INITIATORS],
    /// For each row and target the slots at which an entry with that target stands.
    pub turns: [[u64; NUMBERS]; INITIATORS],
    /// For each row and span, at n - 1, the slots at which an entry of that span or a longer one
    /// stands; while entries are read, of that span alone.
    pub long_enough: [[u64; SPANS]; INITIATORS],
}

/// How many lengths fit, by the routers of both ways.
pub(crate) type Lengths = [u16; Routers::ALL];

const NO_LENGTHS: Lengths = [0; Routers::ALL];

impl Plan {
    pub const fn new() -> Self {
        Self {
            loaded: false,
            size: 0,
            least: 0,
            greatest: 0,
            times: None,
            devices: 0,
            routers: 0,
            links: 0,
            ends: [0; NUMBERS],
            initiator_count: 0,
            initiators: [0; INITIATORS],
            ranks: [0; NUMBERS],
            reached: [0; INITIATORS],
            walks: [[Walk(0); NUMBERS]; INITIATORS],
            replied: [0; INITIATORS],
            replies: [[Walk(0); NUMBERS]; INITIATORS],
            slots: [0; INITIATORS],
            targets: [[0; INITIATORS]; SLOTS],
            shapes: [[Shape::NONE; INITIATORS]; SLOTS],
            spans: [0; INITIATORS],
            lengths: [NO_LENGTHS; SPANS],
            ways: [[Way::NONE; NUMBERS]; INITIATORS],
            turns: [[0; NUMBERS]; INITIATORS],
            long_enough: [[0; SPANS]; INITIATORS],
        }
    }

    /// Makes every number 0 in place. Naming the fields one by one leaves none out.
    pub fn clear(&mut self) {
        let Self {
            loaded,
            size,
            least,
            greatest,
            times,
            devices,
            routers,
            links,
            ends,
            initiator_count,
            initiators,
            ranks,
            reached,
            walks,
            replied,
            replies,
            slots,
            targets,
            shapes,
            spans,
            lengths,
            ways,
            turns,
            long_enough,
        } = self;
        let rows = INITIATORS.min((*initiator_count).into());
        *loaded = false;
        *size = 0;
        *least = 0;
        *greatest = 0;
        *times = None;
        *devices = 0;
        *routers = 0;
        *links = 0;
        *ends = [0; NUMBERS];
        *initiator_count = 0;
        *initiators = [0; INITIATORS];
        *ranks = [0; NUMBERS];
        *reached = [0; INITIATORS];
        *walks = [[Walk(0); NUMBERS]; INITIATORS];
        // A table of replies without one is all 0.
        if *replied != [0; INITIATORS] {
            *replied = [0; INITIATORS];
            *replies = [[Walk(0); NUMBERS]; INITIATORS];
        }
        // The summary of a plan without entries, and of a row without an initiator, is all 0.
        if *slots != [0; INITIATORS] {
            *slots = [0; INITIATORS];
            turns[..rows].as_flattened_mut().fill(0);
            long_enough[..rows].as_flattened_mut().fill(0);
        }
        targets.as_flattened_mut().fill(0);
        shapes.as_flattened_mut().fill(Shape::NONE);
        *ways = [[Way::NONE; NUMBERS]; INITIATORS];
        // The lengths of a span without entries are all 0.
        let all_spans = spans.iter().fold(0, |all, spans| all | spans);
        Members(all_spans).for_each(|span| lengths[usize::from(span) % SPANS] = NO_LENGTHS);
        *spans = [0; INITIATORS];
    }

    #[inline(always)]
    pub fn initiators(&self) -> &[u8] {
        let count = usize::from(self.initiator_count);
        self.initiators.get(..count).unwrap_or(&[])
    }

    /// The row of a device that is an initiator.
    #[inline(always)]
    pub fn row(&self, device: u8) -> Option<usize> {
        match self.ranks.get(usize::from(device)) {
            None | Some(0) => None,
            Some(&rank) => Some(usize::from(rank - 1) % INITIATORS),
        }
    }

    /// Notes for requests, starts and turns that this row has an entry with this target and span. The
    /// spans of a row rise from call to call.
    pub fn permit(&mut self, row: usize, target: u8, span: u8) {
        self.spans[row] |= bit(span - 1);
        let way = &mut self.ways[row][usize::from(target % 64)];
        let routers = way.routers();
        let lengths = &mut self.lengths[usize::from(span - 1) % SPANS][routers.index()];
        if *lengths == 0 {
            *lengths = match self.times {
                None => SLOT_BYTES * u16::from(span) + 1,
                Some(times) => times.lengths(routers, span),
            };
        }
        *way = Way::new(*lengths, routers);
    }

    /// What an entry of this span permits.
    #[inline(always)]
    pub fn lengths(&self, span: u8) -> &Lengths {
        &self.lengths[usize::from(span.wrapping_sub(1)) % SPANS]
    }

    /// What a request of this row to the target reads, if an entry permits that length. A number that
    /// is no target has a way that no length fits.
    #[inline(always)]
    pub fn way(&self, row: usize, target: u8, length: u16) -> Result<Way, Refusal> {
        if length > LENGTH {
            return Err(Refusal::Length);
        }
        let way = self.ways[row].get(usize::from(target));
        let way = way.copied().unwrap_or(Way::NONE);
        if length >= way.lengths() {
            return Err(Refusal::NotPermitted);
        }
        Ok(way)
    }
}

/// The numbers of field 06: Mbit/s, and nanoseconds.
#[derive(Clone, Copy, Debug, PartialEq, Eq)]
pub(crate) struct Times {
    pub rate: u16,
    pub latencies: Latencies,
    pub slot_length: u32,
}

impl Times {
    /// How many lengths, from 0 up, have a time that fits the span with these routers.
    pub fn lengths(&self, routers: Routers, span: u8) -> u16 {
        let (command, reply) = (routers.command(), routers.reply());
        let Sheet { total, e, .. } = Sheet::new(command, reply, self.rate, 0, self.latencies);
        let given = u32::from(span) * self.slot_length;
        let left = u64::from(given.saturating_sub(total - e));
        // A quotient rounded up is at most `left` exactly where its dividend is at most `left` times
        // its divisor. Data and a CRC are one byte more than a length: as many as there are lengths.
        let bytes = u64::from(self.rate) * left / u64::from(BYTE);
        bytes.min(u64::from(LENGTH) + 1) as u16
    }
}

/// The routers on the way of a command, at most seven, above three bits for those on the reply's.
#[derive(Clone, Copy, Debug, PartialEq, Eq)]
pub(crate) struct Routers(u8);

impl Routers {
    pub const ALL: usize = 1 << Self::BITS;
    pub const BITS: u32 = 6;
    const REPLY_BITS: u32 = 3;

    #[inline(always)]
    pub fn new(command: u8, reply: u8) -> Self {
        Self(command << Self::REPLY_BITS | reply)
    }

    pub fn command(self) -> u8 {
        self.0 >> Self::REPLY_BITS
    }

    pub fn reply(self) -> u8 {
        self.0 & ROUTERS
    }

    #[inline(always)]
    pub fn index(self) -> usize {
        usize::from(self.0) % Self::ALL
    }
}

/// Of one path: how many lengths, from 0 up, some entry permits, at most 4,097, above the bits of its
/// routers.
#[derive(Clone, Copy, Debug, PartialEq, Eq)]
pub(crate) struct Way(u32);

impl Way {
    const NONE: Self = Self(0);

    #[inline(always)]
    pub fn new(lengths: u16, routers: Routers) -> Self {
        Self(u32::from(lengths) << Routers::BITS | u32::from(routers.0))
    }

    #[inline(always)]
    pub fn lengths(self) -> u16 {
        (self.0 >> Routers::BITS) as u16
    }

    #[inline(always)]
    pub fn routers(self) -> Routers {
        Routers((self.0 % Routers::ALL as u32) as u8)
    }
}

/// One to eight link numbers of six bits each, the last one lowest, below a bit that is set.
#[derive(Clone, Copy, Debug, PartialEq, Eq)]
pub(crate) struct Walk(u64);

impl Walk {
    pub const START: Self = Self(1);
    const BITS: u32 = 6;

    #[inline(always)]
    pub fn then(self, link: u8) -> Self {
        Self(self.0 << Self::BITS | u64::from(link))
    }

    #[inline(always)]
    pub fn len(self) -> u8 {
        (self.0.checked_ilog2().unwrap_or(0) / Self::BITS) as u8
    }

    /// Gives the link numbers one after another.
    #[inline(always)]
    pub fn links(self) -> impl FnMut() -> u8 {
        let above = self.0.leading_zeros() + 1;
        let mut rest = self.0 << (above % u64::BITS);
        move || {
            let link = rest >> (u64::BITS - Self::BITS);
            rest <<= Self::BITS;
            link as u8
        }
    }
}

/// The span of an entry and the number of its targets, both 0 if there is no entry.
#[derive(Clone, Copy, Debug, PartialEq, Eq)]
pub(crate) struct Shape {
    pub span: u8,
    pub count: u8,
}

impl Shape {
    pub const NONE: Self = Self { span: 0, count: 0 };
}
