//! Numbers as a person writes them, in decimal digits, and the ranges that the box takes.

use crate::layout::shortened;

/// What a number may be for the box to take it, and the greatest that there is room for: what lies between is for the box to refuse.
#[derive(Clone, Copy, Debug)]
pub struct Number {
    pub least: u32,
    pub most: u32,
    pub room: u32,
}

const fn of(least: u32, most: u32, room: u32) -> Number {
    Number { least, most, room }
}

const ONE_BYTE: u32 = 255;
const TWO_BYTES: u32 = 65_535;

/// A device, a link or a slot.
pub const SIXTY_FOUR: Number = of(0, 63, ONE_BYTE);
pub const SPAN: Number = of(1, 16, ONE_BYTE);
pub const KIND: Number = of(0, 1, ONE_BYTE);
pub const ROUTERS: Number = of(0, 7, ONE_BYTE);
pub const BYTE: Number = of(0, ONE_BYTE, ONE_BYTE);
pub const RATE: Number = of(2, 400, TWO_BYTES);
pub const LENGTH: Number = of(0, 4_096, TWO_BYTES);
pub const SHORT: Number = of(0, TWO_BYTES, TWO_BYTES);
/// A latency or the length of a slot, in nanoseconds.
pub const TIME: Number = of(0, 1_000_000, u32::MAX);
/// The least and the greatest interval.
pub const LEAST: Number = of(0, 2_147_483_647, u32::MAX);
pub const GREATEST: Number = of(1, 2_147_483_647, u32::MAX);
pub const LONG: Number = of(0, u32::MAX, u32::MAX);

impl Number {
    /// A number that the box takes up to this one, and no room for more.
    pub const fn up_to(most: u32) -> Self {
        of(0, most, most)
    }

    /// The number that a word is, if there is room for it; else what would be right.
    pub fn read(self, word: &str) -> Result<u32, String> {
        let Self { least, most, room } = self;
        let name = shortened(word, 60);
        if !word.bytes().all(|digit| digit.is_ascii_digit()) {
            return Err(format!(
                "'{name}' is no number; right is a number in decimal digits, {least} to {most}"
            ));
        }
        let digits = word.trim_start_matches('0');
        match if digits.is_empty() {
            Ok(0)
        } else {
            digits.parse()
        } {
            Ok(number) if number <= room => Ok(number),
            _ => Err(format!(
                "{name} is too great; right is a number from {least} to {most}"
            )),
        }
    }

    /// Its last bytes, as many as there is room for.
    pub fn bytes(self, number: u32) -> Vec<u8> {
        let spare = self.room.leading_zeros() as usize / 8;
        number.to_be_bytes()[spare..].to_vec()
    }
}
