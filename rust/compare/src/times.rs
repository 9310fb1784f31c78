//! Field 06 of a plan, and how a length stands to the slots that it is to fit.

use crate::fields::field;
use crate::permits::Permit;
use crate::random::Random;
use reference::{sheet, Latencies};

pub const TAG: u8 = 6;
/// How many numbers the field has.
pub const NUMBERS: usize = 6;
/// Numbers of the field at their bounds, each kind on both sides: the rate, a time.
pub const RATE_BOUNDS: [u32; 4] = [1, 2, 400, 401];
pub const TIME_BOUNDS: [u32; 4] = [0, 1, 1_000_000, 1_000_001];

const LONGEST: u32 = 1_000_000;
const LENGTH: u16 = 4_096;

/// The numbers in the order of the field: rate, latencies a, d, f, g, slot length.
#[derive(Clone, Copy)]
pub struct Times(pub [u32; NUMBERS]);

/// Times in which there is room for 256 bytes in one slot over up to four routers each way.
pub const USUAL: Times = Times([200, 5_000, 5_000, 5_000, 5_000, 39_450]);

/// The bounds of the number at this place of the field.
pub fn bounds(place: usize) -> [u32; 4] {
    match place {
        0 => RATE_BOUNDS,
        _ => TIME_BOUNDS,
    }
}

/// Whether a number is out of range at this place.
pub fn outside(place: usize, number: u32) -> bool {
    match place {
        0 => !(2..=400).contains(&number),
        _ => number > LONGEST,
    }
}

/// Each number of the field at each of its bounds, the others as they are usual.
pub fn at_bounds() -> Vec<Times> {
    let mut all = Vec::new();
    for place in 0..NUMBERS {
        for bound in bounds(place) {
            let mut times = USUAL;
            times.0[place] = bound;
            all.push(times);
        }
    }
    all
}

impl Times {
    /// Those of a field with its header, if it is a 06 of the right length.
    pub fn of(field: &[u8]) -> Option<Self> {
        let [TAG, 0, 22, high, low, times @ ..] = field else {
            return None;
        };
        let mut numbers = [u32::from(u16::from_be_bytes([*high, *low])); NUMBERS];
        for (number, bytes) in numbers[1..].iter_mut().zip(times.chunks_exact(4)) {
            *number = u32::from_be_bytes(bytes.try_into().ok()?);
        }
        Some(Self(numbers))
    }

    /// Those of a plan.
    pub fn among(fields: &[Vec<u8>]) -> Option<Self> {
        fields.iter().find_map(|field| Self::of(field))
    }

    /// The field; the rate has two bytes.
    pub fn field(&self) -> Vec<u8> {
        let [rate, times @ ..] = self.0;
        let times = times.map(u32::to_be_bytes).concat();
        field(TAG, &[&(rate as u16).to_be_bytes()[..], &times].concat())
    }

    /// The time of a length over the ways of a pair, if the numbers are in range.
    fn time(&self, permit: &Permit, length: u16) -> Option<u32> {
        let [rate, a, d, f, g, _] = self.0;
        let latencies = Latencies { a, d, f, g };
        let (command, reply) = (permit.command_routers, permit.reply_routers);
        let sheet = sheet(command, reply, rate as u16, length, latencies);
        sheet.ok().map(|sheet| sheet.total)
    }

    /// The nanoseconds that an entry's slots have more than a length to its target takes.
    pub fn spare(&self, permit: &Permit, length: u16) -> Option<i64> {
        let time = self.time(permit, length)?;
        let slots = i64::from(permit.span) * i64::from(self.0[5]);
        Some(slots - i64::from(time))
    }

    /// Whether a length to its target fits the entry's slots.
    pub fn fits(&self, permit: &Permit, length: u16) -> bool {
        matches!(self.spare(permit, length), Some(0..))
    }

    /// The greatest length that fits, 0 if none does.
    pub fn longest(&self, permit: &Permit) -> u16 {
        let (mut fits, mut over) = (0, LENGTH + 1);
        while over - fits > 1 {
            let middle = (fits + over) / 2;
            match self.fits(permit, middle) {
                true => fits = middle,
                false => over = middle,
            }
        }
        fits
    }

    /// Numbers in range. Most slot lengths are such that the time of some length fits an entry exactly, or does not by as little as
    /// can be.
    pub fn random(permits: &[Permit], random: &mut Random) -> Self {
        let mut numbers = [0; NUMBERS];
        numbers[0] = match random.below(4) {
            0 => random.pick(&[2, 3, 399, 400]),
            1 => random.pick(&[10, 100, 200]),
            _ => random.between(2, 400) as u32,
        };
        for latency in &mut numbers[1..5] {
            *latency = match random.below(10) {
                0 => random.pick(&TIME_BOUNDS[..3]),
                1 => random.below(LONGEST as usize + 1) as u32,
                _ => random.below(10_000) as u32,
            };
        }
        let mut times = Self(numbers);
        times.0[5] = times.random_slot_length(permits, random);
        times
    }

    fn random_slot_length(&self, permits: &[Permit], random: &mut Random) -> u32 {
        if permits.is_empty() || random.chance(200) {
            return match random.chance(500) {
                true => random.pick(&TIME_BOUNDS[..3]),
                false => random.below(LONGEST as usize + 1) as u32,
            };
        }
        let permit = random.pick(permits);
        let length = match random.below(4) {
            0 => 0,
            1 => random.below(usize::from(LENGTH) + 1),
            _ => random.below(600),
        };
        let time = self.time(&permit, length as u16).unwrap_or(0);
        let enough = time.div_ceil(permit.span.max(1).into());
        enough.saturating_sub(random.below(2) as u32).min(LONGEST)
    }

    /// The same with one number at a bound, on either side of it.
    pub fn at_a_bound(mut self, random: &mut Random) -> Self {
        let place = random.below(NUMBERS);
        self.0[place] = random.pick(&bounds(place));
        self
    }
}
