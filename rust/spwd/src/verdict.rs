//! What a load answers, and the line that is printed for it.

use crate::raw;
use crate::words;
use crate::LINE_ROOM;
use core::fmt;

/// How many of each an accepted plan has.
#[derive(Clone, Copy, Debug, PartialEq, Eq)]
pub struct Counts {
    /// Devices given.
    pub devices: u8,
    /// Links given.
    pub links: u8,
    /// Paths given; replies are not counted.
    pub paths: u8,
    /// Entries given.
    pub entries: u16,
}

/// Why a plan file was refused.
#[must_use]
#[derive(Clone, Copy, Debug, PartialEq, Eq)]
pub enum Fault {
    /// 1 to 12 and 15: the first fault of the file.
    File {
        /// Which: [`Verdict::FILE_TOO_LONG`] to [`Verdict::NO_INTERVALS`], or [`Verdict::NO_ENTRY`].
        number: u8,
        /// 1: zero; 2 to 11: offset of the tag of the field at fault; 12 and 15: file length.
        place: u16,
    },
    /// 13: an entry covers, after its own slot, the slot of another one of the same initiator.
    Overrun {
        /// The entry's initiator.
        initiator: u8,
        /// The entry's slot.
        slot: u8,
    },
    /// 14: two initiators clash, by the links of their commands or of their replies.
    Clash {
        /// In this slot.
        slot: u8,
        /// One of them.
        smaller: u8,
        /// And the other.
        greater: u8,
        /// Over this link.
        link: u8,
    },
}

impl Fault {
    /// The verdict's number, 1 to 15.
    pub const fn number(&self) -> u8 {
        match self {
            Self::File { number, .. } => *number,
            Self::Overrun { .. } => Verdict::OVERRUN,
            Self::Clash { .. } => Verdict::CLASH,
        }
    }

    /// What it means, in the words of the card.
    pub fn words(&self) -> &'static str {
        words::verdict(self.number()).means
    }

    /// What to do about it, in the words of the card.
    pub fn to_do(&self) -> &'static str {
        words::verdict(self.number()).to_do
    }
}

impl fmt::Display for Fault {
    /// The printed line of the verdict, without its newline.
    fn fmt(&self, formatter: &mut fmt::Formatter<'_>) -> fmt::Result {
        Verdict::Refused(*self).fmt(formatter)
    }
}

impl core::error::Error for Fault {}

/// The verdict on a plan file, as it is printed. What a load answers becomes one by [`Verdict::from`].
#[must_use]
#[derive(Clone, Copy, Debug, PartialEq, Eq)]
pub enum Verdict {
    /// 0: the box is under the plan.
    Accepted(Counts),
    /// 1 to 15: there is no plan in the box.
    Refused(Fault),
}

impl Verdict {
    /// The number of an accepted plan.
    pub const ACCEPTED: u8 = 0;
    /// The file is over [`FILE_MOST`](crate::FILE_MOST).
    pub const FILE_TOO_LONG: u8 = 1;
    /// The file ends within a field.
    pub const CUT_OFF: u8 = 2;
    /// A tag that there is not.
    pub const UNKNOWN_TAG: u8 = 3;
    /// A tag below the one before, a second 05, or a second 06.
    pub const TAG_ORDER: u8 = 4;
    /// A length that the tag does not allow.
    pub const FIELD_LENGTH: u8 = 5;
    /// A number out of range, or a link, path or reply from a device to itself.
    pub const OUT_OF_RANGE: u8 = 6;
    /// A device, link, path, entry or reply that was given before, or a target twice in one entry.
    pub const GIVEN_BEFORE: u8 = 7;
    /// A device or link that was not given before, or a router as initiator or target.
    pub const NOT_GIVEN: u8 = 8;
    /// A ninth initiator, or the 129th path. A reply makes no initiator and is no path.
    pub const TOO_MANY: u8 = 9;
    /// The links of a path are no walk from its initiator to its target, or those of a reply none from the target back to the initiator.
    pub const NO_WALK: u8 = 10;
    /// An entry's target has no path from its initiator, or a reply's pair has none.
    pub const NO_PATH: u8 = 11;
    /// There are no intervals.
    pub const NO_INTERVALS: u8 = 12;
    /// The number of [`Fault::Overrun`].
    pub const OVERRUN: u8 = 13;
    /// The number of [`Fault::Clash`].
    pub const CLASH: u8 = 14;
    /// There is no entry. Judged after [`Verdict::NO_INTERVALS`] and before [`Verdict::OVERRUN`].
    pub const NO_ENTRY: u8 = 15;

    /// The verdict's number, 0 to 15.
    pub const fn number(&self) -> u8 {
        match self {
            Self::Accepted(_) => Self::ACCEPTED,
            Self::Refused(fault) => fault.number(),
        }
    }

    /// What it means, in the words of the card.
    pub fn words(&self) -> &'static str {
        words::verdict(self.number()).means
    }

    /// What to do about it, in the words of the card.
    pub fn to_do(&self) -> &'static str {
        words::verdict(self.number()).to_do
    }

    /// Whether the box is under the plan.
    #[must_use]
    pub const fn is_accepted(&self) -> bool {
        matches!(self, Self::Accepted(_))
    }

    /// The number, then counts or place, all else 0.
    pub fn numbers(&self) -> [u32; 5] {
        let number = self.number().into();
        match *self {
            Self::Accepted(Counts {
                devices,
                links,
                paths,
                entries,
            }) => [
                number,
                devices.into(),
                links.into(),
                paths.into(),
                entries.into(),
            ],
            Self::Refused(Fault::File { place, .. }) => [number, place.into(), 0, 0, 0],
            Self::Refused(Fault::Overrun { initiator, slot }) => {
                [number, initiator.into(), slot.into(), 0, 0]
            }
            Self::Refused(Fault::Clash {
                slot,
                smaller,
                greater,
                link,
            }) => [
                number,
                slot.into(),
                smaller.into(),
                greater.into(),
                link.into(),
            ],
        }
    }

    /// Prints the verdict's line, newline included, and gives its size; the buffer beyond it keeps its bytes.
    pub fn print(&self, line: &mut [u8; LINE_ROOM]) -> usize {
        raw::print(&self.numbers(), line)
    }

    /// The printed line.
    pub fn line(&self) -> Line {
        let mut bytes = [0; LINE_ROOM];
        let size = self.print(&mut bytes);
        Line { bytes, size }
    }
}

impl From<Result<Counts, Fault>> for Verdict {
    /// The verdict that a load answered.
    fn from(answer: Result<Counts, Fault>) -> Self {
        answer.map_or_else(Self::Refused, Self::Accepted)
    }
}

impl fmt::Display for Verdict {
    /// The printed line without its newline.
    fn fmt(&self, formatter: &mut fmt::Formatter<'_>) -> fmt::Result {
        formatter.pad(self.line().as_str().trim_end())
    }
}

/// What these numbers of a verdict say, each cut to its width; those of a verdict have no more.
pub(crate) fn judged(numbers: [u32; 5]) -> Result<Counts, Fault> {
    let [number, a, b, c, d] = numbers;
    let number = number as u8;
    let answer = match number {
        Verdict::ACCEPTED => Ok(Counts {
            devices: a as u8,
            links: b as u8,
            paths: c as u8,
            entries: d as u16,
        }),
        Verdict::OVERRUN => Err(Fault::Overrun {
            initiator: a as u8,
            slot: b as u8,
        }),
        Verdict::CLASH => Err(Fault::Clash {
            slot: a as u8,
            smaller: b as u8,
            greater: c as u8,
            link: d as u8,
        }),
        _ => Err(Fault::File {
            number,
            place: a as u16,
        }),
    };
    debug_assert_eq!(Verdict::from(answer).numbers(), numbers);
    answer
}

/// A printed verdict, newline included.
#[derive(Clone, Copy, Debug, PartialEq, Eq)]
pub struct Line {
    bytes: [u8; LINE_ROOM],
    size: usize,
}

impl Line {
    /// Its bytes.
    pub fn as_bytes(&self) -> &[u8] {
        self.bytes.get(..self.size).unwrap_or(&[])
    }

    /// The same as text.
    pub fn as_str(&self) -> &str {
        core::str::from_utf8(self.as_bytes()).unwrap_or("")
    }
}
