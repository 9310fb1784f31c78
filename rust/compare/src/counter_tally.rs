//! Of the counter's two questions, is it blank and does it hold this plan: what was reached, and how often.

use crate::asked::{Asked, Holds};
use crate::blank::Blank;
use crate::part::Part;
use std::fmt;

/// Names, and how often each was met.
type Counts = Vec<(&'static str, u64)>;

/// What both boxes answered, and what is known beside it.
pub struct Told {
    pub blank: Blank,
    pub asked: Asked,
    pub holds: Holds,
    /// Of another plan that is not held: what it differs in alone.
    pub part: Option<Part>,
    /// Whether a transaction is live, and whether a caller lent the five.
    pub live: bool,
    pub lent: bool,
}

#[derive(Default)]
pub struct CounterTally {
    blank: [u64; Blank::ALL.len()],
    /// For each file that is asked about.
    holds: [[u64; Holds::ALL.len()]; Asked::ALL.len()],
    /// Files of another plan that differs in one thing alone.
    parts: [u64; Part::ALL.len()],
    /// Plans that were held while a transaction was live, and with five numbers that a caller lent.
    live: u64,
    lent: u64,
}

impl CounterTally {
    pub fn told(&mut self, told: Told) {
        self.blank[told.blank as usize] += 1;
        self.holds[told.asked as usize][told.holds as usize] += 1;
        if let Some(part) = told.part {
            self.parts[part as usize] += 1;
        }
        let held = told.holds == Holds::Held;
        self.live += u64::from(held && told.live);
        self.lent += u64::from(held && told.lent);
    }

    /// For each file the answers that are to be reached of it, and how often each was.
    fn wanted(&self) -> Vec<(&'static str, Counts)> {
        let of_file = |(asked, file): (Asked, &'static str)| {
            let counts = self.holds[asked as usize];
            let wanted = Holds::ALL.into_iter();
            let wanted = wanted.filter(|(holds, _)| asked.wanted().contains(holds));
            let wanted = wanted.map(|(holds, name)| (name, counts[holds as usize]));
            (file, wanted.collect())
        };
        Asked::ALL.into_iter().map(of_file).collect()
    }

    /// Those that were blank, or those that were not.
    fn blanks(&self, blank: bool) -> Counts {
        let all = Blank::ALL.into_iter();
        let all = all.filter(|(what, _)| what.is_blank() == blank);
        all.map(|(what, name)| (name, self.blank[what as usize]))
            .collect()
    }

    fn differing(&self) -> Counts {
        let parts = Part::ALL.into_iter();
        parts
            .map(|(part, name)| (name, self.parts[part as usize]))
            .collect()
    }

    fn meanwhile(&self) -> [(&'static str, u64); 2] {
        [
            ("a live transaction", self.live),
            ("five that were lent", self.lent),
        ]
    }

    pub fn missing(&self) -> Vec<String> {
        let mut missing = Vec::new();
        let mut want = |before: &str, counts: &[(&str, u64)]| {
            let never = counts.iter().filter(|(_, count)| *count == 0);
            missing.extend(never.map(|(name, _)| format!("{before} {name} was not reached")));
        };
        want("blank", &self.blanks(true));
        want("not blank", &self.blanks(false));
        want("a plan held with", &self.meanwhile());
        for (file, counts) in self.wanted() {
            want(&format!("holds, {file},"), &counts);
        }
        want("another plan, alone for", &self.differing());
        missing
    }
}

impl fmt::Display for CounterTally {
    fn fmt(&self, formatter: &mut fmt::Formatter<'_>) -> fmt::Result {
        writeln!(formatter, "blank     {}", list(&self.blanks(true)))?;
        writeln!(formatter, "  not {}", list(&self.blanks(false)))?;
        writeln!(formatter, "held      with {}", list(&self.meanwhile()))?;
        for (file, counts) in self.wanted() {
            writeln!(formatter, "  {file}: {}", list(&counts))?;
        }
        let differing = list(&self.differing());
        writeln!(formatter, "  another plan, alone for {differing}")
    }
}

fn list(counts: &[(&str, u64)]) -> String {
    let words = counts.iter();
    let words = words.map(|(name, count)| format!("{name}: {count}"));
    words.collect::<Vec<_>>().join(", ")
}
