//! When the next turn is, from one slot or from every slot, in words; every count is that of the proved box. A turn is a slot at which an
//! entry stands that permits what is asked about.

use crate::grid::{heading, BLOCK, CELL};
use crate::judge::held;
use crate::layout::wrapped;
use crate::plan::Plan;
use crate::times::over_time;
use crate::words;
use spwd::{Refusal, Spwd, SLOTS};
use std::fmt::{self, Display, Formatter};

/// A request as far as its turns depend on it.
#[derive(Clone, Copy, Debug, PartialEq, Eq)]
pub struct Wanted {
    pub initiator: u8,
    pub target: u8,
    pub length: u16,
}

impl Wanted {
    /// How many slots after this one the next turn is.
    pub fn next(&self, desk: &Spwd, slot: u8) -> Result<u8, Refusal> {
        desk.next(self.initiator, self.target, self.length, slot)
    }

    /// A refusal in words; where no entry permits this for the plan's times, with these.
    pub fn refused(&self, what: &str, refusal: Refusal, desk: &Spwd) -> Vec<String> {
        let mut lines = vec![words::refused(what, refusal)];
        let why = self.why(refusal, desk);
        lines.extend(why.map(|why| format!("    {why}")));
        lines
    }

    /// The plan's times, where no entry permits this for them.
    pub fn why(&self, refusal: Refusal, desk: &Spwd) -> Option<String> {
        let times = refusal == Refusal::NOT_PERMITTED;
        times.then(|| over_time(&Plan::of(&held(desk)), self))?
    }
}

impl Display for Wanted {
    fn fmt(&self, out: &mut Formatter<'_>) -> fmt::Result {
        let (initiator, target, bytes) = (self.initiator, self.target, words::bytes(self.length));
        write!(out, "initiator {initiator} to target {target}, {bytes}")
    }
}

/// What is asked of a plan: the next turn after one slot, or after each.
#[derive(Clone, Copy, Debug, PartialEq, Eq)]
pub struct Question {
    pub wanted: Wanted,
    pub slot: Option<u8>,
}

impl Question {
    /// After one slot a line; after each the turns, and a table of the counts.
    pub fn answer(&self, desk: &Spwd) -> Result<Vec<String>, Refusal> {
        let next = |slot| self.wanted.next(desk, slot);
        if let Some(slot) = self.slot {
            let when = when(slot, next(slot)?);
            return Ok(vec![format!("{self}: {when}")]);
        }
        let counts: Result<Vec<_>, _> = (0..SLOTS).map(next).collect();
        let counts = counts?;
        let mut lines = vec![self.to_string()];
        lines.extend(turns(&counts));
        lines.extend(farthest(&counts));
        lines.push(String::new());
        lines.extend(table(&counts));
        Ok(lines)
    }
}

impl Display for Question {
    fn fmt(&self, out: &mut Formatter<'_>) -> fmt::Result {
        match self.slot {
            Some(slot) => write!(out, "next turn of {}, after slot {slot}", self.wanted),
            None => write!(out, "turns of {}", self.wanted),
        }
    }
}

/// Where a count leads: "in slot 62, 57 slots on".
pub fn when(slot: u8, count: u8) -> String {
    let turn = (u32::from(slot) + u32::from(count)) % u32::from(SLOTS);
    let again = if count == SLOTS { " again" } else { "" };
    format!("in slot {turn}{again}, {} on", slots(count))
}

fn slots(count: u8) -> String {
    let plural = if count == 1 { "" } else { "s" };
    format!("{count} slot{plural}")
}

/// A slot is a turn if the count from the one before it is 1.
fn turns(counts: &[u8]) -> Vec<String> {
    let before = counts.iter().cycle().skip(counts.len().saturating_sub(1));
    let turns = before.zip(0..SLOTS).filter(|(&count, _)| count == 1);
    let turns: Vec<_> = turns.map(|(_, slot)| slot.to_string()).collect();
    let plural = if turns.len() == 1 { "" } else { "s" };
    let head = format!("  {} turn{plural} in {SLOTS} slots:", turns.len());
    wrapped(&head, &turns)
}

/// The first slot with the greatest count.
fn farthest(counts: &[u8]) -> Option<String> {
    let most = *counts.iter().max()?;
    let slot = counts.iter().position(|&count| count == most)?;
    Some(format!("  farthest after slot {slot}: {} on", slots(most)))
}

/// The counts below the slots that they are from.
fn table(counts: &[u8]) -> Vec<String> {
    let head = "slots on to the next turn, after each slot (64: that slot again)";
    let mut lines = vec![head.to_string()];
    for (index, block) in counts.chunks(BLOCK).enumerate() {
        if index > 0 {
            lines.push(String::new());
        }
        let cells = block.iter().map(|count| format!("{count:<CELL$}"));
        let row = format!("    on  {}", cells.collect::<String>());
        lines.push(heading(index * BLOCK));
        lines.push(row.trim_end().to_string());
    }
    lines
}
