//! The initiators at work: waiting requests, live transactions and the records of a time-code.

use crate::bits::{bit, rows};
use crate::event::{class, Answer, Refusal};
use crate::plan::{Lengths, Plan, Routers, Shape, INITIATORS};

pub(crate) const EARLY: u8 = 1;
pub(crate) const LATE: u8 = 2;
const OUT_OF_SEQUENCE: u8 = 3;
const TRANSACTION_LATE: u8 = 4;
const STARTED: u8 = 5;
const STILL_LIVE: u8 = 6;

const WAITING: u8 = 8;
const RECORDS: usize = 17;
const RECORD: usize = 8;

/// A transaction as the number its record makes, with kind and slot 0.
#[derive(Clone, Copy, Debug, PartialEq, Eq)]
struct Transaction(u64);

impl Transaction {
    const NONE: Self = Self(0);

    #[inline(always)]
    fn target(self) -> u8 {
        (self.0 >> 40) as u8
    }

    #[inline(always)]
    fn number(self) -> u16 {
        (self.0 >> 16) as u16
    }

    #[inline(always)]
    fn length(self) -> u16 {
        self.0 as u16
    }
}

/// A request as the number of its transaction, with the routers of its ways in the bits on top.
#[derive(Clone, Copy, Debug, PartialEq, Eq)]
struct Request(u64);

impl Request {
    const NONE: Self = Self(0);
    const ROUTERS: u32 = u64::BITS - Routers::BITS;

    #[inline(always)]
    fn new(initiator: u8, target: u8, routers: Routers, number: u16, length: u16) -> Self {
        Self(
            (routers.index() as u64) << Self::ROUTERS
                | u64::from(initiator) << 48
                | u64::from(target) << 40
                | u64::from(number) << 16
                | u64::from(length),
        )
    }

    #[inline(always)]
    fn transaction(self) -> Transaction {
        Transaction(self.0 & !(u64::MAX << Self::ROUTERS))
    }

    #[inline(always)]
    fn fits(self, targets: u64, lengths: &Lengths) -> bool {
        let transaction = self.transaction();
        let fitting = lengths[(self.0 >> Self::ROUTERS) as usize];
        targets & bit(transaction.target()) != 0 && transaction.length() < fitting
    }
}

/// The records of one time-code.
pub(crate) struct Records<'a> {
    room: &'a mut [u8; RECORD * RECORDS],
    count: u8,
    value: u8,
}

impl<'a> Records<'a> {
    /// None if the buffer has under 136 bytes.
    #[inline(always)]
    pub fn new(buffer: &'a mut [u8], value: u8) -> Option<Self> {
        let room = buffer.first_chunk_mut()?;
        Some(Self {
            room,
            count: 0,
            value,
        })
    }

    /// Writes a record of kind 1 to 3.
    #[inline(always)]
    pub fn mark(&mut self, kind: u8) {
        self.write(kind, Transaction::NONE);
    }

    #[inline(always)]
    fn write(&mut self, kind: u8, transaction: Transaction) {
        let start = RECORD * usize::from(self.count);
        if let Some(place) = self.room.get_mut(start..start + RECORD) {
            let record = u64::from(kind) << 56 | u64::from(self.value) << 32 | transaction.0;
            place.copy_from_slice(&record.to_be_bytes());
            self.count += 1;
        }
    }

    #[inline(always)]
    pub fn count(&self) -> u8 {
        self.count
    }
}

/// The requests of one initiator in a ring, the oldest at `first`.
#[derive(Clone, Copy, Debug, PartialEq, Eq)]
struct Line {
    waiting: [Request; WAITING as usize],
    first: u8,
    count: u8,
    /// The number of the next transaction.
    next: u16,
}

impl Line {
    const EMPTY: Self = Self {
        waiting: [Request::NONE; WAITING as usize],
        first: 0,
        count: 0,
        next: 0,
    };

    /// The place that is `index` places behind the oldest request.
    #[inline(always)]
    fn place(&mut self, index: u8) -> &mut Request {
        &mut self.waiting[usize::from((self.first + index) % WAITING)]
    }

    /// Adds a request and gives its transaction number; none if the line is full.
    #[inline(always)]
    fn join(&mut self, initiator: u8, target: u8, routers: Routers, length: u16) -> Option<u16> {
        if self.count == WAITING {
            return None;
        }
        let number = self.next;
        *self.place(self.count) = Request::new(initiator, target, routers, number, length);
        self.count += 1;
        self.next = number.wrapping_add(1);
        Some(number)
    }

    /// Takes out the oldest request that an entry with these targets and lengths permits.
    #[inline(always)]
    fn take(&mut self, targets: u64, lengths: &Lengths) -> Option<Transaction> {
        if self.count == 0 {
            return None;
        }
        let oldest = *self.place(0);
        if !oldest.fits(targets, lengths) {
            return self.take_later(targets, lengths);
        }
        self.drop_first();
        Some(oldest.transaction())
    }

    /// The same where the oldest of all is not permitted.
    #[inline(never)]
    fn take_later(&mut self, targets: u64, lengths: &Lengths) -> Option<Transaction> {
        let index = (1..self.count).find(|&index| self.place(index).fits(targets, lengths))?;
        let found = *self.place(index);
        for older in (0..index).rev() {
            *self.place(older + 1) = *self.place(older);
        }
        self.drop_first();
        Some(found.transaction())
    }

    #[inline(always)]
    fn drop_first(&mut self) {
        self.first = (self.first + 1) % WAITING;
        self.count -= 1;
    }
}

/// Everything that events change, apart from the watchdog. Rows are those of the plan.
#[derive(Clone, Debug, PartialEq, Eq)]
pub(crate) struct Run {
    /// The value in sequence; none before the first time-code.
    expected: Option<u8>,
    /// The rows with a live transaction.
    live: u8,
    /// For each live row its transaction, and the time-code value at which that is late.
    current: [Transaction; INITIATORS],
    due: [u8; INITIATORS],
    lines: [Line; INITIATORS],
}

impl Run {
    pub const fn new() -> Self {
        Self {
            expected: None,
            live: 0,
            current: [Transaction::NONE; INITIATORS],
            due: [0; INITIATORS],
            lines: [Line::EMPTY; INITIATORS],
        }
    }

    #[inline(always)]
    pub fn request(
        &mut self,
        plan: &Plan,
        initiator: u8,
        target: u8,
        kind: u8,
        length: u16,
    ) -> Result<Answer, Refusal> {
        let row = plan.row(initiator).ok_or(Refusal::NoInitiator)?;
        if kind > 1 {
            return Err(Refusal::Kind);
        }
        let way = plan.way(row, target, length)?;
        let number = self.lines[row]
            .join(initiator, target, way.routers(), length)
            .ok_or(Refusal::LineFull)?;
        Ok(Answer::Taken { number })
    }

    #[inline(always)]
    pub fn reply(
        &mut self,
        plan: &Plan,
        initiator: u8,
        number: u16,
        status: u8,
    ) -> Result<Answer, Refusal> {
        let row = plan.row(initiator).ok_or(Refusal::NoInitiator)?;
        if self.live & 1 << row == 0 {
            return Err(Refusal::NothingLive);
        }
        let ended = self.current[row];
        if ended.number() != number {
            return Err(Refusal::OtherNumber);
        }
        self.live &= !(1 << row);
        Ok(Answer::Ended {
            target: ended.target(),
            length: ended.length(),
            status,
            class: class(status),
        })
    }

    /// Takes a time-code and writes the records that follow the watchdog's.
    #[inline(always)]
    pub fn time_code(&mut self, plan: &Plan, records: &mut Records) {
        let value = records.value;
        let in_sequence = self.expected.is_none_or(|expected| expected == value);
        self.expected = Some((value + 1) % 64);
        if in_sequence {
            self.end(self.live & self.due_at(value), records);
            self.start(plan, value, records);
        } else {
            records.mark(OUT_OF_SEQUENCE);
            self.end(self.live, records);
        }
    }

    /// The rows whose transaction, if live, is late at this value. A live transaction has met only
    /// time-codes in sequence since its start, so the value tells how many they were.
    #[inline(always)]
    fn due_at(&self, value: u8) -> u8 {
        const ONES: u64 = 0x0101_0101_0101_0101;
        // A byte of this is 0 where the two are the same, and below 64 elsewhere.
        let apart = u64::from_le_bytes(self.due) ^ (u64::from(value) * ONES);
        let same = !(apart + 0x7f * ONES) >> 7 & ONES;
        // Brings bit 8 * row to bit 56 + row.
        (same.wrapping_mul(0x0102_0408_1020_4080) >> 56) as u8
    }

    #[inline(always)]
    fn end(&mut self, late: u8, records: &mut Records) {
        for row in rows(late) {
            records.write(TRANSACTION_LATE, self.current[row]);
        }
        self.live &= !late;
    }

    #[inline(always)]
    fn start(&mut self, plan: &Plan, value: u8, records: &mut Records) {
        let slot = usize::from(value % 64);
        let entries = plan.shapes[slot].iter().zip(&plan.targets[slot]);
        let initiators = self.lines.iter_mut().zip(&mut self.current);
        let initiators = initiators.zip(&mut self.due);
        let mut live = self.live;
        // As a set of rows.
        let mut row = 1;
        for ((&Shape { span, .. }, &targets), ((line, current), due)) in entries.zip(initiators) {
            if span != 0 {
                if live & row != 0 {
                    records.write(STILL_LIVE, *current);
                } else if let Some(started) = line.take(targets, plan.lengths(span)) {
                    records.write(STARTED, started);
                    live |= row;
                    *current = started;
                    *due = (value + span) % 64;
                }
            }
            row <<= 1;
        }
        self.live = live;
    }
}
