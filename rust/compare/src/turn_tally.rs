//! Of the next turn: what was reached, and how often.

use crate::turns::{Shown, Turn, Turned};
use std::collections::BTreeMap;
use std::fmt;

const SAME_SLOT: u8 = 64;

/// Numbers and how often each was met.
type Counts = BTreeMap<u8, u64>;

#[derive(Default)]
pub struct TurnTally {
    counts: Counts,
    refusals: Counts,
    /// Those of a length over 4,096, and those from a slot over 63: each of the smaller numbers comes before 24, or 33.
    too_long: Counts,
    no_slot: Counts,
    shown: [u64; Shown::ALL.len()],
    /// Transactions that started at the turn that was named for them, by its count.
    kept: Counts,
}

impl TurnTally {
    /// An answer; of a count, what it shows.
    pub fn turn(&mut self, turn: Turn, answer: Turned, shown: &[Shown]) {
        match answer {
            Ok(count) => add(&mut self.counts, count),
            Err(number) => {
                add(&mut self.refusals, number);
                if turn.length > 4_096 {
                    add(&mut self.too_long, number);
                }
                if turn.slot > 63 {
                    add(&mut self.no_slot, number);
                }
            }
        }
        for &what in shown {
            self.shown[what as usize] += 1;
        }
    }

    /// A transaction started at the turn that was named for it.
    pub fn kept(&mut self, count: u8) {
        add(&mut self.kept, count);
    }

    pub fn missing(&self) -> Vec<String> {
        let refusals = self.refused().into_iter();
        let refusals = refusals.flat_map(|(name, counts, wanted)| {
            let never = wanted.iter().filter(|number| !counts.contains_key(number));
            never.map(move |number| format!("refusal {number} {name} was not reached"))
        });
        let counts = (1..=SAME_SLOT).filter(|count| !self.counts.contains_key(count));
        let counts = counts.map(|count| format!("no turn was counted {count}"));
        let shown = Shown::ALL
            .into_iter()
            .filter(|&(what, _)| self.shown[what as usize] == 0);
        let shown = shown.map(|(_, name)| format!("no turn was {name}"));
        let kept = three(&self.kept).into_iter();
        let kept = kept.filter(|&(_, count)| count == 0);
        let kept = kept.map(|(name, _)| format!("nothing started at a turn {name}"));
        refusals.chain(counts).chain(shown).chain(kept).collect()
    }

    /// Refusals, and which of them are to be reached.
    fn refused(&self) -> [(&'static str, &Counts, &'static [u8]); 3] {
        [
            ("of a turn", &self.refusals, &[20, 22, 24, 25, 33]),
            (
                "of a turn for over 4,096 bytes",
                &self.too_long,
                &[20, 22, 24],
            ),
            (
                "of a turn from a slot over 63",
                &self.no_slot,
                &[20, 22, 24, 25, 33],
            ),
        ]
    }
}

fn add(counts: &mut Counts, number: u8) {
    *counts.entry(number).or_default() += 1;
}

/// Of turns by their count: in the next slot, in the same again, and between these.
fn three(counts: &Counts) -> [(&'static str, u64); 3] {
    let sum = |from, to| counts.range(from..=to).map(|(_, count)| count).sum();
    [
        ("counted 1", sum(1, 1)),
        ("counted 2 to 63", sum(2, SAME_SLOT - 1)),
        ("counted 64", sum(SAME_SLOT, SAME_SLOT)),
    ]
}

fn list<T: fmt::Display>(counts: impl IntoIterator<Item = (T, u64)>) -> String {
    let words = counts
        .into_iter()
        .map(|(name, count)| format!("{name}: {count}"));
    words.collect::<Vec<_>>().join(", ")
}

impl fmt::Display for TurnTally {
    fn fmt(&self, formatter: &mut fmt::Formatter<'_>) -> fmt::Result {
        writeln!(formatter, "turns     {}", list(three(&self.counts)))?;
        for (name, counts, _) in self.refused() {
            let counts = counts.iter().map(|(number, &count)| (number, count));
            writeln!(formatter, "  refusals {name}: {}", list(counts))?;
        }
        for (what, name) in Shown::ALL {
            writeln!(formatter, "  {name}: {}", self.shown[what as usize])?;
        }
        writeln!(formatter, "  started there: {}", list(three(&self.kept)))
    }
}
