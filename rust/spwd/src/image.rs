//! An image of a box: the bytes of its memory, as a jig reads them back.

use crate::plan::Plan;
use crate::raw::{self, Last, Run};
use crate::watchdog::Watchdog;

/// Bytes of an image: the size of `spwd_box` of `c/spwd.h`.
pub const IMAGE_SIZE: usize = 15_656;

/// One array of a box: where it stands in an image, and the numbers in it, each little-endian.
#[derive(Clone, Copy, Debug, PartialEq, Eq)]
pub struct Array {
    /// As `c/spwd.h` calls it.
    pub name: &'static str,
    /// Of its first byte.
    pub offset: usize,
    /// How many numbers.
    pub count: usize,
    /// Bytes of each.
    pub width: usize,
}

impl Array {
    /// The nodes, the routers and the links that are given.
    pub const SETS: Self = Self::first("sets", 3, 8);
    /// The devices of each link.
    pub const ENDS: Self = Self::SETS.then("ends", 128, 1);
    /// The initiators.
    pub const ROWS: Self = Self::ENDS.then("rows", 8, 1);
    /// The targets of each.
    pub const REACH: Self = Self::ROWS.then("reach", 8, 8);
    /// Paths, and behind them replies.
    pub const PATHS: Self = Self::REACH.then("paths", 2816, 1);
    /// Spans of entries.
    pub const SPANS: Self = Self::PATHS.then("spans", 512, 1);
    /// Targets of entries, and behind them where turns are.
    pub const AIMS: Self = Self::SPANS.then("aims", 1152, 8);
    /// Intervals, counts, slot times and what paths cost.
    pub const NUMBERS: Self = Self::AIMS.then("numbers", 524, 4);
    /// What waits and what is live.
    pub const RUN: Self = Self::NUMBERS.then("run", 96, 8);
    /// The watchdog's five numbers.
    pub const WATCHDOG: Self = Self::RUN.then("watchdog", 5, 4);
    /// The last accepted time-code.
    pub const LAST: Self = Self::WATCHDOG.then("last", 1, 1);

    /// All of them, front to back. Behind the last stand three bytes that belong to no number.
    pub const ALL: [Self; 11] = [
        Self::SETS,
        Self::ENDS,
        Self::ROWS,
        Self::REACH,
        Self::PATHS,
        Self::SPANS,
        Self::AIMS,
        Self::NUMBERS,
        Self::RUN,
        Self::WATCHDOG,
        Self::LAST,
    ];

    const fn first(name: &'static str, count: usize, width: usize) -> Self {
        Self {
            name,
            offset: 0,
            count,
            width,
        }
    }

    /// The array behind this one.
    const fn then(self, name: &'static str, count: usize, width: usize) -> Self {
        Self {
            name,
            offset: self.end(),
            count,
            width,
        }
    }

    /// The offset behind its last byte.
    pub const fn end(self) -> usize {
        self.offset + self.count * self.width
    }
}

/// Any memory of a box's size, whatever left it there. What may be asked of any memory is asked here; there is no way from an image to
/// a [`Spwd`](crate::Spwd), whose other calls are proved for memory that came from a clear, a load or an event.
#[derive(Clone, Debug)]
pub struct Image {
    bytes: [u8; IMAGE_SIZE],
}

impl Image {
    /// The memory that these bytes are.
    pub const fn new(bytes: [u8; IMAGE_SIZE]) -> Self {
        Self { bytes }
    }

    /// The memory of a box.
    pub(crate) fn of(plan: &Plan, run: &Run, watchdog: Watchdog, last: Last) -> Self {
        let mut image = Self::new([0; IMAGE_SIZE]);
        let eight = u64::to_le_bytes;
        let four = u32::to_le_bytes;
        image.put(Array::SETS, plan.sets.map(eight).as_flattened());
        image.put(Array::ENDS, &plan.ends);
        image.put(Array::ROWS, &plan.rows);
        image.put(Array::REACH, plan.reach.map(eight).as_flattened());
        image.put(Array::PATHS, &plan.paths);
        image.put(Array::SPANS, &plan.spans);
        image.put(Array::AIMS, plan.aims.map(eight).as_flattened());
        image.put(Array::NUMBERS, plan.numbers.map(four).as_flattened());
        image.put(Array::RUN, run.map(eight).as_flattened());
        image.put(
            Array::WATCHDOG,
            <[u32; 5]>::from(watchdog).map(four).as_flattened(),
        );
        image.put(Array::LAST, &last);
        image
    }

    fn put(&mut self, array: Array, bytes: &[u8]) {
        self.bytes[array.offset..array.end()].copy_from_slice(bytes);
    }

    /// Its bytes.
    pub const fn bytes(&self) -> &[u8; IMAGE_SIZE] {
        &self.bytes
    }

    /// The number at a place of an array; 0 where it has no such place.
    pub fn number(&self, array: Array, place: usize) -> u64 {
        if place >= array.count {
            return 0;
        }
        let first = array.offset + place * array.width;
        let bytes = self.bytes.get(first..first + array.width);
        let low_last = bytes.unwrap_or(&[]).iter().rev();
        low_last.fold(0, |number, &byte| number << 8 | u64::from(byte))
    }

    /// Whether every number is that of a clear.
    #[must_use]
    pub fn is_blank(&self) -> bool {
        raw::is_blank(&self.plan(), &self.run(), &self.last(), &self.watchdog())
    }

    /// Whether the memory holds the plan of this file, as [`Spwd::holds`](crate::Spwd::holds) says it of a box.
    #[must_use]
    pub fn holds(&self, file: &[u8], other: &mut Plan) -> bool {
        raw::holds(file, &self.plan(), other)
    }

    /// Memory that no load may have left: not to be handed out.
    fn plan(&self) -> Plan {
        Plan {
            sets: self.words(Array::SETS),
            ends: self.narrow(Array::ENDS),
            rows: self.narrow(Array::ROWS),
            reach: self.words(Array::REACH),
            paths: self.narrow(Array::PATHS),
            spans: self.narrow(Array::SPANS),
            aims: self.words(Array::AIMS),
            numbers: self.halves(Array::NUMBERS),
        }
    }

    fn run(&self) -> Run {
        self.words(Array::RUN)
    }

    fn last(&self) -> Last {
        self.narrow(Array::LAST)
    }

    fn watchdog(&self) -> Watchdog {
        Watchdog::from(self.halves::<5>(Array::WATCHDOG))
    }

    fn words<const N: usize>(&self, array: Array) -> [u64; N] {
        self.each(array, u64::from_le_bytes)
    }

    fn halves<const N: usize>(&self, array: Array) -> [u32; N] {
        self.each(array, u32::from_le_bytes)
    }

    fn narrow<const N: usize>(&self, array: Array) -> [u8; N] {
        let bytes = &self.bytes[array.offset..array.end()];
        bytes.try_into().unwrap_or([0; N])
    }

    /// The `N` numbers of an array, each of `W` bytes.
    fn each<T: Copy + Default, const N: usize, const W: usize>(
        &self,
        array: Array,
        number: fn([u8; W]) -> T,
    ) -> [T; N] {
        let mut numbers = [T::default(); N];
        let bytes = self.bytes[array.offset..array.end()].chunks_exact(W);
        for (place, bytes) in numbers.iter_mut().zip(bytes) {
            if let Ok(bytes) = bytes.try_into() {
                *place = number(bytes);
            }
        }
        numbers
    }
}
