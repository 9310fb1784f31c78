//! The files that a box is asked about: does it hold their plan? And why it does not.

use crate::damage::damaged;
use crate::fields::split;
use crate::plans;
use crate::random::Random;
use crate::theirs;
use std::borrow::Cow;

/// Which file it is, beside the one that was loaded last.
#[derive(Clone, Copy, Debug, PartialEq, Eq)]
pub enum Asked {
    Loaded,
    Canonical,
    Reordered,
    Moved,
    Changed,
    Damaged,
    Other,
}

impl Asked {
    /// In their order.
    pub const ALL: [(Self, &'static str); 7] = [
        (Self::Loaded, "the loaded file"),
        (Self::Canonical, "its plan written out"),
        (Self::Reordered, "another order of it"),
        (Self::Moved, "one entry of it at another slot"),
        (Self::Changed, "one field of it changed"),
        (Self::Damaged, "a damaged one"),
        (Self::Other, "another file"),
    ];

    /// Any but the loaded file itself.
    pub fn another(random: &mut Random) -> Self {
        Self::ALL[random.between(1, Self::ALL.len() - 1)].0
    }

    /// The loaded file nearly always.
    pub fn mostly_loaded(random: &mut Random) -> Self {
        match random.chance(80) {
            true => Self::another(random),
            false => Self::Loaded,
        }
    }

    /// The file, and the loaded one where there is none such.
    pub fn file<'a>(self, loaded: &'a [u8], random: &mut Random) -> (Self, Cow<'a, [u8]>) {
        let file = match self {
            Self::Loaded => None,
            Self::Canonical => theirs::canonical(loaded),
            Self::Reordered => Some(plans::reordered(loaded, random)),
            Self::Moved => moved(loaded, random),
            Self::Changed => changed(loaded, random),
            Self::Damaged => Some(damaged(loaded, random)),
            Self::Other => Some(plans::plan(random)),
        };
        match file {
            Some(file) => (self, Cow::Owned(file)),
            None => (Self::Loaded, Cow::Borrowed(loaded)),
        }
    }

    /// Whether a box with the plan of the loaded file holds this one, if that is so whatever the file.
    pub fn is_held(self) -> Option<bool> {
        match self {
            Self::Loaded | Self::Canonical | Self::Reordered => Some(true),
            Self::Moved | Self::Changed => Some(false),
            Self::Damaged | Self::Other => None,
        }
    }

    /// The answers that are to be reached.
    pub fn wanted(self) -> &'static [Holds] {
        use Holds::{Held, Neither, NoPlan, OtherPlan, Refused};
        match self {
            Self::Loaded | Self::Reordered => &[Held, NoPlan, Neither],
            Self::Canonical => &[Held, NoPlan],
            Self::Damaged => &[Held, NoPlan, Neither, Refused, OtherPlan],
            Self::Moved | Self::Changed | Self::Other => &[NoPlan, Neither, Refused, OtherPlan],
        }
    }
}

/// An entry at another slot, and all else as it is. A plan that differs so is another one.
fn moved(file: &[u8], random: &mut Random) -> Option<Vec<u8>> {
    let (mut fields, rest) = split(file);
    let place = one_of(&fields, 4, random)?;
    let slot = fields[place].get_mut(4)?;
    *slot = (*slot).wrapping_add(random.between(1, 63) as u8) % 64;
    Some([fields.concat(), rest.to_vec()].concat())
}

/// One byte of a field another, or a field left out; of each tag as often. In no order is the plan then the same.
fn changed(file: &[u8], random: &mut Random) -> Option<Vec<u8>> {
    let (mut fields, rest) = split(file);
    let tag = random.between(1, 7) as u8;
    let place = one_of(&fields, tag, random)?;
    let content = &mut fields[place][3..];
    let byte = &mut content[random.below(content.len())];
    match random.below(4) {
        0 => *byte = (*byte).wrapping_add(random.between(1, 63) as u8) % 64,
        1 => *byte = (*byte).wrapping_add(1),
        2 => *byte ^= 1,
        _ => drop(fields.remove(place)),
    }
    Some([fields.concat(), rest.to_vec()].concat())
}

/// The place of a field with this tag and some content.
fn one_of(fields: &[Vec<u8>], tag: u8, random: &mut Random) -> Option<usize> {
    let places = (0..fields.len()).filter(|&at| fields[at][0] == tag && fields[at].len() > 3);
    let places: Vec<usize> = places.collect();
    match places[..] {
        [] => None,
        _ => Some(random.pick(&places)),
    }
}

/// What a box answers, and why.
#[derive(Clone, Copy, Debug, PartialEq, Eq)]
pub enum Holds {
    Held,
    NoPlan,
    Neither,
    Refused,
    OtherPlan,
}

impl Holds {
    /// In their order.
    pub const ALL: [(Self, &'static str); 5] = [
        (Self::Held, "held"),
        (Self::NoPlan, "no plan in the box"),
        (Self::Neither, "no plan in the box or the file"),
        (Self::Refused, "no plan in the file"),
        (Self::OtherPlan, "another plan"),
    ];

    /// By what is known of the box and of the file.
    pub fn of(holds: bool, has_plan: bool, accepted: bool) -> Self {
        match (holds, has_plan, accepted) {
            (true, _, _) => Self::Held,
            (false, false, true) => Self::NoPlan,
            (false, false, false) => Self::Neither,
            (false, true, false) => Self::Refused,
            (false, true, true) => Self::OtherPlan,
        }
    }
}
