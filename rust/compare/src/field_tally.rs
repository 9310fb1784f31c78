//! Of fields 06 and 07: what was reached, and how often.

use crate::replies::{self, met, Met};
use crate::theirs;
use crate::times::{self, bounds, outside, Times, NUMBERS};
use std::fmt;

/// The verdicts have the numbers below this.
pub const VERDICTS: usize = 16;
/// Those on a whole file.
pub const WHOLE: [usize; 5] = [0, 12, 13, 14, 15];

/// Of the fields with one tag.
#[derive(Default)]
pub struct TagTally<const TAG: u8> {
    /// The verdicts on such a field, and on a whole file that has one.
    pub verdicts: [u64; VERDICTS],
    /// Verdict 4 on a field of a lower tag behind one.
    behind: u64,
}

impl<const TAG: u8> TagTally<TAG> {
    /// A verdict on the judged field, with the one before it.
    fn field(&mut self, number: usize, before: &[u8], judged: &[u8]) {
        if judged.first() == Some(&TAG) {
            self.verdicts[number] += 1;
        } else if number == 4 && before.first() == Some(&TAG) {
            self.behind += 1;
        }
    }

    /// A verdict on a whole file; the first field of this tag.
    fn whole<'a>(&mut self, number: usize, fields: &'a [Vec<u8>]) -> Option<&'a [u8]> {
        let found = fields.iter().find(|field| field[0] == TAG)?;
        self.verdicts[number] += 1;
        Some(found)
    }

    /// What was to be reached and was not, or the other way round: such a field has these verdicts, and a whole file.
    fn missing(&self, own: &[usize]) -> Vec<String> {
        let mut missing = Vec::new();
        for number in 2..VERDICTS {
            let wanted = own.contains(&number) || WHOLE.contains(&number);
            if wanted && self.verdicts[number] == 0 {
                missing.push(format!("verdict {number} with a 0{TAG} was not reached"));
            }
            if !wanted && self.verdicts[number] != 0 {
                missing.push(format!("verdict {number} was given for a 0{TAG}"));
            }
        }
        if self.verdicts[0] == 0 {
            missing.push(format!("no plan with a 0{TAG} was accepted"));
        }
        if self.behind == 0 {
            missing.push(format!("no lower tag behind a 0{TAG} was refused"));
        }
        missing
    }
}

impl<const TAG: u8> fmt::Display for TagTally<TAG> {
    fn fmt(&self, formatter: &mut fmt::Formatter<'_>) -> fmt::Result {
        writeln!(formatter, "with 0{TAG}   {}", row(&self.verdicts, 0))?;
        writeln!(formatter, "  4 for a lower tag behind it: {}", self.behind)
    }
}

/// Numbers and how often each was met.
pub fn row(counts: &[u64], first: usize) -> String {
    let numbers = counts.iter().enumerate().skip(first);
    let words = numbers.map(|(number, count)| format!("{number}: {count}"));
    words.collect::<Vec<_>>().join(", ")
}

/// Of field 06.
#[derive(Default)]
pub struct TimesTally {
    pub tag: TagTally<{ times::TAG }>,
    /// For each number of the field and each of its bounds: accepted inside, refused outside and for that alone.
    at_bounds: [[u64; 4]; NUMBERS],
}

impl TimesTally {
    /// A verdict on the judged field, with the one before it.
    pub fn field(&mut self, number: usize, before: &[u8], judged: &[u8]) {
        self.tag.field(number, before, judged);
        self.bounds(number, judged);
    }

    /// A verdict on a whole file.
    pub fn whole(&mut self, number: usize, fields: &[Vec<u8>]) {
        if let Some(field) = self.tag.whole(number, fields) {
            self.bounds(number, field);
        }
    }

    fn bounds(&mut self, number: usize, field: &[u8]) {
        let Some(Times(numbers)) = Times::of(field) else {
            return;
        };
        let beyond = |place: usize| outside(place, numbers[place]);
        let refused = number == 6;
        let alone = (0..NUMBERS).filter(|&place| beyond(place)).count() == 1;
        if number != 0 && !(refused && alone) {
            return;
        }
        for place in (0..NUMBERS).filter(|&place| beyond(place) == refused) {
            let bound = bounds(place).iter().position(|&at| at == numbers[place]);
            if let Some(bound) = bound {
                self.at_bounds[place][bound] += 1;
            }
        }
    }

    pub fn missing(&self) -> Vec<String> {
        let mut missing = self.tag.missing(&[2, 4, 5, 6]);
        for (place, counts) in self.at_bounds.iter().enumerate() {
            for (bound, _) in bounds(place).iter().zip(counts).filter(|(_, &n)| n == 0) {
                missing.push(format!(
                    "number {place} of a 06 was not decisive at {bound}"
                ));
            }
        }
        missing
    }
}

impl fmt::Display for TimesTally {
    fn fmt(&self, formatter: &mut fmt::Formatter<'_>) -> fmt::Result {
        write!(formatter, "{}", self.tag)?;
        for (place, counts) in self.at_bounds.iter().enumerate() {
            let counts = bounds(place).into_iter().zip(counts);
            let words = counts.map(|(bound, count)| format!("{bound}: {count}"));
            let words = words.collect::<Vec<_>>().join(", ");
            writeln!(formatter, "  its number {place} at {words}")?;
        }
        Ok(())
    }
}

/// Of field 07.
#[derive(Default)]
pub struct RepliesTally {
    pub tag: TagTally<{ replies::TAG }>,
    /// Verdict 3 on the tag above.
    above: u64,
    /// Accepted without and with times.
    accepted: [u64; 2],
    /// Transactions started under such a plan, without and with times.
    started: [u64; 2],
    met: [u64; Met::ALL.len()],
    /// Clashes in a plan that is accepted without its replies.
    only: u64,
}

impl RepliesTally {
    /// A verdict on the judged field, with the one before it.
    pub fn field(&mut self, number: usize, before: &[u8], judged: &[u8]) {
        self.tag.field(number, before, judged);
        self.above += u64::from(number == 3 && judged.first() == Some(&(replies::TAG + 1)));
    }

    /// A verdict on a whole file.
    pub fn whole(&mut self, verdict: [u32; 5], fields: &[Vec<u8>]) {
        let number = verdict[0] as usize;
        if self.tag.whole(number, fields).is_none() {
            return;
        }
        match number {
            0 => self.accepted[usize::from(Times::among(fields).is_some())] += 1,
            14 => self.clash(verdict, fields),
            _ => {}
        }
    }

    fn clash(&mut self, verdict: [u32; 5], fields: &[Vec<u8>]) {
        for what in met(fields, verdict) {
            self.met[what as usize] += 1;
        }
        let others = fields.iter().filter(|field| field[0] != replies::TAG);
        let others: Vec<u8> = others.flatten().copied().collect();
        self.only += u64::from(theirs::accepts(&others));
    }

    /// So many transactions started under a plan with replies.
    pub fn started(&mut self, timed: bool, count: usize) {
        self.started[usize::from(timed)] += count as u64;
    }

    pub fn missing(&self) -> Vec<String> {
        let mut missing = self.tag.missing(&[2, 5, 6, 7, 8, 10, 11]);
        let mut want = |count: u64, what: &str| {
            if count == 0 {
                missing.push(what.to_owned());
            }
        };
        want(self.above, "tag 08 was not refused with 3");
        for (timed, with) in ["without", "with"].into_iter().enumerate() {
            want(
                self.accepted[timed],
                &format!("no plan with a 07 and {with} a 06 was accepted"),
            );
            want(
                self.started[timed],
                &format!("nothing started with a 07 and {with} a 06"),
            );
        }
        for (what, name) in Met::ALL {
            want(self.met[what as usize], &format!("no clash was {name}"));
        }
        want(self.only, "no clash was there for the replies alone");
        missing
    }
}

impl fmt::Display for RepliesTally {
    fn fmt(&self, formatter: &mut fmt::Formatter<'_>) -> fmt::Result {
        write!(formatter, "{}", self.tag)?;
        writeln!(formatter, "  3 for the tag above it: {}", self.above)?;
        let ([plain, timed], [started, started_timed]) = (self.accepted, self.started);
        writeln!(
            formatter,
            "  without a 06: {plain} accepted, {started} started; with one: {timed}, {started_timed}"
        )?;
        for (what, name) in Met::ALL {
            writeln!(formatter, "  a clash {name}: {}", self.met[what as usize])?;
        }
        writeln!(
            formatter,
            "  a clash in a plan that is accepted without its 07: {}",
            self.only
        )
    }
}
