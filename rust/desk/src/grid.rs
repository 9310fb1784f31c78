//! The table of sixty-four slots as a grid: a row for each initiator, in four blocks of sixteen slots.

use crate::fields::Entry;
use crate::layout::wrapped;
use crate::plan::Plan;

const SLOTS: usize = 64;
/// Slots beside each other.
pub const BLOCK: usize = 16;
/// Characters of a slot in a row.
pub const CELL: usize = 4;

/// What stands in one slot of a row.
#[derive(Clone, Copy)]
enum Cell<'a> {
    Free,
    Begins(&'a Entry<'a>),
    Runs,
}

pub fn grid(plan: &Plan) -> Vec<String> {
    let initiators = plan.initiators();
    let sets = sets(plan);
    let mut lines = vec![
        "table (a row for each initiator; in a slot the target, or a letter for several)"
            .to_string(),
    ];
    for first in (0..SLOTS).step_by(BLOCK) {
        lines.push(heading(first));
        for &initiator in &initiators {
            let cells = cells(plan, initiator);
            lines.push(row(initiator, &cells, first, &sets));
        }
        lines.push(String::new());
    }
    for (index, set) in sets.iter().enumerate() {
        let targets: Vec<_> = set.iter().map(u8::to_string).collect();
        lines.extend(wrapped(&format!("  {}:", letter(index)), &targets));
    }
    lines
        .push("  .: free   =: still running   >: runs on, and after slot 63 in slot 0".to_string());
    lines
}

/// The sets of several targets, in the order of the table.
fn sets<'a>(plan: &Plan<'a>) -> Vec<&'a [u8]> {
    let mut sets: Vec<&[u8]> = Vec::new();
    for entry in &plan.entries {
        if entry.targets.len() > 1 && !sets.contains(&entry.targets) {
            sets.push(entry.targets);
        }
    }
    sets
}

/// A to Z, then AA to ZZ.
pub fn letter(index: usize) -> String {
    let one = |index: usize| char::from(b'A' + (index % 26) as u8);
    match index / 26 {
        0 => one(index).to_string(),
        more => [one(more - 1), one(index)].iter().collect(),
    }
}

fn cells<'a>(plan: &'a Plan<'a>, initiator: u8) -> [Cell<'a>; SLOTS] {
    let mut cells = [Cell::Free; SLOTS];
    for entry in plan.entries_of(initiator) {
        let first = usize::from(entry.slot);
        for slot in first + 1..first + usize::from(entry.span) {
            cells[slot % SLOTS] = Cell::Runs;
        }
    }
    // Of a plan that is refused an entry may begin while another one runs.
    for entry in plan.entries_of(initiator) {
        cells[usize::from(entry.slot) % SLOTS] = Cell::Begins(entry);
    }
    cells
}

/// The slots of a block, from its first on.
pub fn heading(first: usize) -> String {
    let slots = (first..first + BLOCK).map(|slot| format!("{slot:<CELL$}"));
    let line = format!("  slot  {}", slots.collect::<String>());
    line.trim_end().to_string()
}

/// One initiator's slots of a block.
fn row(initiator: u8, cells: &[Cell; SLOTS], first: usize, sets: &[&[u8]]) -> String {
    let runs = |slot: usize| matches!(cells[slot % SLOTS], Cell::Runs);
    let mark = |slot| if runs(slot) { '>' } else { ' ' };
    let mut line = format!("{initiator:>6} {}", mark(first));
    for (slot, cell) in cells.iter().enumerate().skip(first).take(BLOCK) {
        let text = match cell {
            Cell::Free => ".".to_string(),
            Cell::Begins(entry) => name(entry, sets),
            Cell::Runs => "=".repeat(CELL - 1),
        };
        let fill = if runs(slot + 1) { '=' } else { ' ' };
        let width = CELL - text.len();
        line += &text;
        line.extend(std::iter::repeat_n(fill, width));
    }
    line.push(mark(first + BLOCK));
    line.trim_end().to_string()
}

/// The target of an entry, or the letter of its targets.
fn name(entry: &Entry, sets: &[&[u8]]) -> String {
    match entry.targets {
        [target] => target.to_string(),
        several => {
            let place = sets.iter().position(|&set| set == several);
            place.map_or("?".to_string(), letter)
        }
    }
}
