//! The plan in a box's memory, read back from its image as a file. Any memory gives some file: whether it is that of a load is for the box
//! to say, which is asked whether the memory holds the plan of that file.

use crate::fields::field;
use crate::sets::members;
use spwd::{Array, Image};

/// Places in `numbers`, and rows and strides of the other arrays, as crates/memory_plan/src/layout.rt has them.
const LEAST: usize = 0;
const GREATEST: usize = 1;
const INITIATORS: usize = 2;
const PATHS: usize = 3;
const RATE: usize = 6;
const LATENCIES: [usize; 4] = [7, 8, 9, 10];
const SLOT: usize = 11;
const SLOTS: usize = 64;
const ROWS: usize = 8;
const ROW: usize = 11;
const ROW_LINKS: usize = 3;
const MOST_LINKS: usize = 8;
const MOST_PATHS: usize = 128;

/// Of plan memory that a load left, the file that write-out writes.
pub fn file_in(image: &Image) -> Vec<u8> {
    let memory = Memory(image);
    [
        memory.devices(),
        memory.links(),
        memory.routes(3, 0),
        memory.entries(),
        memory.timing(),
        memory.times(),
        memory.routes(7, MOST_PATHS),
    ]
    .concat()
}

/// Whether every number of plan memory is 0, as where there is no plan.
pub fn no_plan(image: &Image) -> bool {
    let plan = &image.bytes()[..Array::NUMBERS.end()];
    plan.iter().all(|&byte| byte == 0)
}

/// The initiators of a plan in memory.
pub fn initiators(image: &Image) -> Vec<u8> {
    let memory = Memory(image);
    let rows = 0..memory.count(INITIATORS, ROWS);
    rows.map(|row| memory.byte(Array::ROWS, row)).collect()
}

struct Memory<'a>(&'a Image);

impl Memory<'_> {
    fn byte(&self, array: Array, place: usize) -> u8 {
        self.0.number(array, place) as u8
    }

    fn long(&self, place: usize) -> [u8; 4] {
        (self.0.number(Array::NUMBERS, place) as u32).to_be_bytes()
    }

    /// A number of `numbers` that counts, and the most that it may be.
    fn count(&self, place: usize, most: usize) -> usize {
        let count = self.0.number(Array::NUMBERS, place);
        most.min(count as usize)
    }

    /// The numbers that are in a set.
    fn set(&self, array: Array, place: usize) -> Vec<u8> {
        members(self.0.number(array, place))
    }

    fn devices(&self) -> Vec<u8> {
        let mut devices: Vec<_> = [0, 1]
            .iter()
            .flat_map(|&kind| {
                self.set(Array::SETS, kind.into())
                    .into_iter()
                    .map(move |number| [number, kind])
            })
            .collect();
        devices.sort_unstable();
        let fields = devices.iter().map(|device| field(1, device));
        fields.collect::<Vec<_>>().concat()
    }

    fn links(&self) -> Vec<u8> {
        let end = |link: u8, side| self.byte(Array::ENDS, 2 * usize::from(link) + side);
        let links = self.set(Array::SETS, 2).into_iter();
        let fields = links.map(|link| field(2, &[link, end(link, 0), end(link, 1)]));
        fields.collect::<Vec<_>>().concat()
    }

    /// The paths, or behind their rows the replies: not every path has one.
    fn routes(&self, tag: u8, first: usize) -> Vec<u8> {
        let rows = first..first + self.count(PATHS, MOST_PATHS);
        let routes = rows.map(|row| self.route(ROW * row));
        let fields = routes.filter(|route| route.len() > 2 || tag == 3);
        let fields = fields.map(|route| field(tag, &route));
        fields.collect::<Vec<_>>().concat()
    }

    /// Initiator, target and links.
    fn route(&self, first: usize) -> Vec<u8> {
        let byte = |place| self.byte(Array::PATHS, first + place);
        let links = MOST_LINKS.min(byte(2).into());
        let links = (ROW_LINKS..ROW_LINKS + links).map(byte);
        [byte(0), byte(1)].into_iter().chain(links).collect()
    }

    fn entries(&self) -> Vec<u8> {
        let cells = 0..SLOTS * self.count(INITIATORS, ROWS);
        let entries = cells.filter(|&cell| self.byte(Array::SPANS, cell) != 0);
        let fields = entries.map(|cell| {
            let initiator = self.byte(Array::ROWS, cell / SLOTS);
            let (slot, span) = ((cell % SLOTS) as u8, self.byte(Array::SPANS, cell));
            let targets = self.set(Array::AIMS, cell);
            field(4, &[&[initiator, slot, span], &targets[..]].concat())
        });
        fields.collect::<Vec<_>>().concat()
    }

    fn timing(&self) -> Vec<u8> {
        field(5, &[self.long(LEAST), self.long(GREATEST)].concat())
    }

    /// Slot times, where there are any. Memory has the slot by the rate.
    fn times(&self) -> Vec<u8> {
        let number = |place| self.0.number(Array::NUMBERS, place) as u32;
        let Some(slot) = number(SLOT).checked_div(number(RATE)) else {
            return Vec::new();
        };
        let rate = (number(RATE) as u16).to_be_bytes();
        let latencies = LATENCIES.map(|place| self.long(place));
        let numbers = [latencies.as_flattened(), &slot.to_be_bytes()].concat();
        field(6, &[&rate[..], &numbers].concat())
    }
}
