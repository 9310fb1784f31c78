//! What waits and what is live in a box's memory, read back from its image; or what of it no box leaves there.

use crate::memory::initiators;
use crate::plan::Plan;
use crate::times::least_span;
use crate::turns::Wanted;
use spwd::{Array, Image, LENGTH_MOST, WAITING_MOST};

/// Words of a row, and places in it, as crates/memory_run/src/layout.rt has them.
const ROW: usize = 12;
const NEXT: usize = 0;
const WAITING: usize = 1;
const LINE: usize = 2;
const LIVE: usize = 10;
const TIME: usize = 11;

/// One initiator that has something waiting or live.
#[derive(Debug, PartialEq, Eq)]
pub struct Side {
    pub initiator: u8,
    pub waiting: usize,
    pub live: Option<Live>,
}

#[derive(Debug, PartialEq, Eq)]
pub struct Live {
    pub number: u16,
    pub target: u8,
}

/// A number that no box leaves, and why.
#[derive(Debug, PartialEq, Eq)]
pub struct Wrong {
    pub array: Array,
    pub place: usize,
    pub why: String,
}

/// The sides of the initiators that are not idle; the memory holds this plan.
pub fn running(image: &Image, plan: &Plan) -> Result<Vec<Side>, Wrong> {
    let initiators = initiators(image);
    let sides = initiators.iter().enumerate().map(|(row, &initiator)| {
        Row {
            image,
            plan,
            first: ROW * row,
            initiator,
        }
        .side()
    });
    let mut sides = sides.collect::<Result<Vec<_>, _>>()?;
    sides.retain(|side| side.waiting > 0 || side.live.is_some());
    for place in ROW * initiators.len()..Array::RUN.count {
        if image.number(Array::RUN, place) != 0 {
            return Err(wrong(place, "this row is of no initiator".to_string()));
        }
    }
    if image.number(Array::LAST, 0) > 64 {
        return Err(Wrong {
            array: Array::LAST,
            place: 0,
            why: "a time-code has 0 to 63, and one more here".to_string(),
        });
    }
    Ok(sides)
}

fn wrong(place: usize, why: String) -> Wrong {
    Wrong {
        array: Array::RUN,
        place,
        why,
    }
}

/// The words of an initiator.
struct Row<'a> {
    image: &'a Image,
    plan: &'a Plan<'a>,
    first: usize,
    initiator: u8,
}

/// A request as its word has it.
struct Request {
    number: u16,
    target: u8,
    /// The least span that it fits.
    need: u8,
}

impl Row<'_> {
    fn word(&self, place: usize) -> u64 {
        self.image.number(Array::RUN, self.first + place)
    }

    fn wrong(&self, place: usize, why: &str) -> Wrong {
        let initiator = self.initiator;
        wrong(self.first + place, format!("initiator {initiator}: {why}"))
    }

    fn side(&self) -> Result<Side, Wrong> {
        if self.word(NEXT) > u16::MAX.into() {
            return Err(self.wrong(NEXT, "this is no number of a transaction"));
        }
        let waiting = self.word(WAITING);
        if waiting > WAITING_MOST as u64 {
            return Err(self.wrong(WAITING, "at most 8 requests wait"));
        }
        for place in 0..WAITING_MOST {
            self.place(LINE + place, (place as u64) < waiting)?;
        }
        Ok(Side {
            initiator: self.initiator,
            waiting: waiting as usize,
            live: self.live()?,
        })
    }

    /// A place of the line: a request up to how many wait, and nothing behind.
    fn place(&self, place: usize, taken: bool) -> Result<(), Wrong> {
        match (taken, self.request(place)) {
            (true, None) => Err(self.wrong(place, "this is no request")),
            (false, _) if self.word(place) != 0 => {
                Err(self.wrong(place, "nothing waits here in the line"))
            }
            _ => Ok(()),
        }
    }

    fn live(&self) -> Result<Option<Live>, Wrong> {
        if (self.word(LIVE), self.word(TIME)) == (0, 0) {
            return Ok(None);
        }
        let request = self.request(LIVE);
        let request = request.ok_or_else(|| self.wrong(LIVE, "this is no live transaction"))?;
        // How many time-codes are left, and the span of the entry that it started at.
        let (left, span) = (self.word(TIME) / 256, self.word(TIME) % 256);
        let mut entries = self.plan.entries_of(self.initiator);
        let began = entries.any(|entry| {
            u64::from(entry.span) == span
                && entry.span >= request.need
                && entry.targets.contains(&request.target)
        });
        if !began || !(1..=span).contains(&left) {
            return Err(self.wrong(TIME, "this is no time left to the live transaction"));
        }
        Ok(Some(Live {
            number: request.number,
            target: request.target,
        }))
    }

    /// The request in a word, as crates/memory_run/specs/Run.antt packs it: one that the plan permits.
    fn request(&self, place: usize) -> Option<Request> {
        let [kind, initiator, target, need, number @ .., high, low] =
            self.word(place).to_le_bytes();
        let length = u16::from_be_bytes([high, low]);
        let wanted = Wanted {
            initiator,
            target,
            length,
        };
        let permits = |span| {
            let mut entries = self.plan.entries_of(initiator);
            entries.any(|entry| entry.span >= span && entry.targets.contains(&target))
        };
        let right = kind & 0x7f == 0
            && initiator == self.initiator
            && length <= LENGTH_MOST
            && least_span(self.plan, &wanted) == Some(need)
            && permits(need);
        right.then_some(Request {
            number: u16::from_be_bytes(number),
            target,
            need,
        })
    }
}
