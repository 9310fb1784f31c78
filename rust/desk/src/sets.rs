//! Sets of numbers below 64 in a word: bit n is number n.

/// The set of these numbers.
pub fn set(numbers: impl Iterator<Item = u8>) -> u64 {
    numbers.fold(0, |set, number| set | 1 << (number % 64))
}

/// The numbers of a set, rising.
pub fn members(set: u64) -> Vec<u8> {
    (0..64).filter(|number| set >> number & 1 == 1).collect()
}
