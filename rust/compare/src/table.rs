//! The table of slots while a plan is being made: what an entry more would spoil.

const SLOTS: usize = 64;

/// For each initiator, by its place among them, and each slot.
#[derive(Default)]
pub struct Table {
    rows: Vec<Row>,
}

#[derive(Clone)]
struct Row {
    /// Whether an entry stands there.
    stands: [bool; SLOTS],
    /// Whether an entry covers it, after its own slot.
    followed: [bool; SLOTS],
    /// The links that an entry covering it may use, as bits.
    links: [u64; SLOTS],
}

impl Table {
    pub fn new(initiators: usize) -> Self {
        let row = Row {
            stands: [false; SLOTS],
            followed: [false; SLOTS],
            links: [0; SLOTS],
        };
        Self {
            rows: vec![row; initiators],
        }
    }

    pub fn stands(&self, row: usize, slot: usize) -> bool {
        self.rows[row].stands[slot]
    }

    /// Whether an entry there leaves the plan without overrun and clash.
    pub fn has_room(&self, row: usize, slot: usize, span: usize, links: u64) -> bool {
        let Row {
            stands, followed, ..
        } = &self.rows[row];
        let overrun = followed[slot] || covered(slot, span).skip(1).any(|later| stands[later]);
        let clash = |later: usize| {
            let others = self
                .rows
                .iter()
                .enumerate()
                .filter(|&(other, _)| other != row);
            others
                .into_iter()
                .any(|(_, other)| other.links[later] & links != 0)
        };
        !stands[slot] && !overrun && !covered(slot, span).any(clash)
    }

    pub fn add(&mut self, row: usize, slot: usize, span: usize, links: u64) {
        let row = &mut self.rows[row];
        row.stands[slot] = true;
        for (after, later) in covered(slot, span).enumerate() {
            row.followed[later] |= after > 0;
            row.links[later] |= links;
        }
    }
}

/// The slots of an entry; after 63 comes 0.
fn covered(slot: usize, span: usize) -> impl Iterator<Item = usize> {
    (slot..slot + span).map(|slot| slot % SLOTS)
}
