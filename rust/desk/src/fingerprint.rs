//! The fingerprint of a plan: the first sixteen hex digits of the SHA-256 of its canonical file, as `sha256sum` shows them.

const DIGITS: usize = 16;

/// Of the file that write-out writes.
pub fn fingerprint(canonical: &[u8]) -> String {
    let mut digits: String = sha_256(canonical)
        .iter()
        .map(|byte| format!("{byte:02x}"))
        .collect();
    digits.truncate(DIGITS);
    digits
}

/// Bytes of a block, and of the count of bits that stands at the end of the last one.
const BLOCK: usize = 64;
const COUNT: usize = 8;

/// FIPS 180-4, section 6.2.
pub fn sha_256(message: &[u8]) -> [u8; 32] {
    let mut state = START;
    let (blocks, rest) = message.split_at(message.len() / BLOCK * BLOCK);
    for block in blocks
        .chunks(BLOCK)
        .chain(end(rest, message.len()).chunks(BLOCK))
    {
        state = mixed(state, &schedule(block));
    }
    let mut digest = [0; 32];
    for (place, word) in digest.chunks_mut(4).zip(state) {
        place.copy_from_slice(&word.to_be_bytes());
    }
    digest
}

/// The last bytes of a message, a one bit, zeros, and how many bits the message has: one block or two.
fn end(rest: &[u8], size: usize) -> Vec<u8> {
    let mut end = rest.to_vec();
    end.push(0x80);
    end.resize((end.len() + COUNT).next_multiple_of(BLOCK) - COUNT, 0);
    end.extend((size as u64 * 8).to_be_bytes());
    end
}

/// The sixty-four words that a block becomes.
fn schedule(block: &[u8]) -> [u32; 64] {
    let mut words = [0; 64];
    for (word, bytes) in words.iter_mut().zip(block.chunks(4)) {
        *word = bytes.iter().fold(0, |n, &byte| n << 8 | u32::from(byte));
    }
    for t in 16..64 {
        let (far, near): (u32, u32) = (words[t - 15], words[t - 2]);
        let far = far.rotate_right(7) ^ far.rotate_right(18) ^ far >> 3;
        let near = near.rotate_right(17) ^ near.rotate_right(19) ^ near >> 10;
        words[t] = [far, words[t - 7], near]
            .iter()
            .fold(words[t - 16], |sum, &word| sum.wrapping_add(word));
    }
    words
}

/// The state after a block.
fn mixed(before: [u32; 8], words: &[u32; 64]) -> [u32; 8] {
    let mut state = before;
    for (&word, &constant) in words.iter().zip(&CONSTANTS) {
        let [a, b, c, d, e, f, g, h] = state;
        let one = h
            .wrapping_add(e.rotate_right(6) ^ e.rotate_right(11) ^ e.rotate_right(25))
            .wrapping_add(e & f ^ !e & g)
            .wrapping_add(constant)
            .wrapping_add(word);
        let two = (a.rotate_right(2) ^ a.rotate_right(13) ^ a.rotate_right(22))
            .wrapping_add(a & b ^ a & c ^ b & c);
        state = [one.wrapping_add(two), a, b, c, d.wrapping_add(one), e, f, g];
    }
    for (word, before) in state.iter_mut().zip(before) {
        *word = word.wrapping_add(before);
    }
    state
}

/// Section 5.3.3.
const START: [u32; 8] = [
    0x6a09e667, 0xbb67ae85, 0x3c6ef372, 0xa54ff53a, 0x510e527f, 0x9b05688c, 0x1f83d9ab, 0x5be0cd19,
];

/// Section 4.2.2.
const CONSTANTS: [u32; 64] = [
    0x428a2f98, 0x71374491, 0xb5c0fbcf, 0xe9b5dba5, 0x3956c25b, 0x59f111f1, 0x923f82a4, 0xab1c5ed5,
    0xd807aa98, 0x12835b01, 0x243185be, 0x550c7dc3, 0x72be5d74, 0x80deb1fe, 0x9bdc06a7, 0xc19bf174,
    0xe49b69c1, 0xefbe4786, 0x0fc19dc6, 0x240ca1cc, 0x2de92c6f, 0x4a7484aa, 0x5cb0a9dc, 0x76f988da,
    0x983e5152, 0xa831c66d, 0xb00327c8, 0xbf597fc7, 0xc6e00bf3, 0xd5a79147, 0x06ca6351, 0x14292967,
    0x27b70a85, 0x2e1b2138, 0x4d2c6dfc, 0x53380d13, 0x650a7354, 0x766a0abb, 0x81c2c92e, 0x92722c85,
    0xa2bfe8a1, 0xa81a664b, 0xc24b8b70, 0xc76c51a3, 0xd192e819, 0xd6990624, 0xf40e3585, 0x106aa070,
    0x19a4c116, 0x1e376c08, 0x2748774c, 0x34b0bcb5, 0x391c0cb3, 0x4ed8aa4a, 0x5b9cca4f, 0x682e6ff3,
    0x748f82ee, 0x78a5636f, 0x84c87814, 0x8cc70208, 0x90befffa, 0xa4506ceb, 0xbef9a3f7, 0xc67178f2,
];

#[cfg(test)]
mod tests {
    use super::*;

    fn digest(message: &[u8]) -> String {
        let bytes = sha_256(message).map(|byte| format!("{byte:02x}"));
        bytes.concat()
    }

    /// The examples that NIST gives for FIPS 180-4.
    #[test]
    fn examples_of_the_standard() {
        for (message, right) in [
            (
                &b""[..],
                "e3b0c44298fc1c149afbf4c8996fb92427ae41e4649b934ca495991b7852b855",
            ),
            (
                b"abc",
                "ba7816bf8f01cfea414140de5dae2223b00361a396177a9cb410ff61f20015ad",
            ),
            (
                b"abcdbcdecdefdefgefghfghighijhijkijkljklmklmnlmnomnopnopq",
                "248d6a61d20638b8e5c026930c3e6039a33ce45964ff2167f6ecedd419db06c1",
            ),
            (
                &[b'a'; 1_000_000],
                "cdc76e5c9914fb9281a1c7e284d73e67f1809a48a497200e046d39ccc7112cd0",
            ),
        ] {
            assert_eq!(digest(message), right, "{} bytes", message.len());
        }
    }

    /// Lengths around those at which the end needs one block more; the digests are those of `sha256sum`.
    #[test]
    fn ends_of_one_block_and_of_two() {
        for (size, right) in [
            (
                1,
                "6e340b9cffb37a989ca544e6bb780a2c78901d3fb33738768511a30617afa01d",
            ),
            (
                54,
                "675f28acc0b90a72d1c3a570fe83ac565555db358cf01826dc8eefb2bf7ca0f3",
            ),
            (
                55,
                "463eb28e72f82e0a96c0a4cc53690c571281131f672aa229e0d45ae59b598b59",
            ),
            (
                56,
                "da2ae4d6b36748f2a318f23e7ab1dfdf45acdc9d049bd80e59de82a60895f562",
            ),
            (
                57,
                "2fe741af801cc238602ac0ec6a7b0c3a8a87c7fc7d7f02a3fe03d1c12eac4d8f",
            ),
            (
                63,
                "29af2686fd53374a36b0846694cc342177e428d1647515f078784d69cdb9e488",
            ),
            (
                64,
                "fdeab9acf3710362bd2658cdc9a29e8f9c757fcf9811603a8c447cd1d9151108",
            ),
            (
                65,
                "4bfd2c8b6f1eec7a2afeb48b934ee4b2694182027e6d0fc075074f2fabb31781",
            ),
            (
                118,
                "d32ab00929cb935b79d44e74c5a745db460ff794dea3b79be40c1cc5cf5388ef",
            ),
            (
                119,
                "da18797ed7c3a777f0847f429724a2d8cd5138e6ed2895c3fa1a6d39d18f7ec6",
            ),
            (
                120,
                "f52b23db1fbb6ded89ef42a23ce0c8922c45f25c50b568a93bf1c075420bbb7c",
            ),
            (
                121,
                "335a461692b30bba1d647cc71604e88e676c90e4c22455d0b8c83f4bd7c8ac9b",
            ),
            (
                127,
                "92ca0fa6651ee2f97b884b7246a562fa71250fedefe5ebf270d31c546bfea976",
            ),
            (
                128,
                "471fb943aa23c511f6f72f8d1652d9c880cfa392ad80503120547703e56a2be5",
            ),
            (
                129,
                "5099c6a56203f9687f7d33f4bfdf576d31dc91f6b695ecea38b2770c87631135",
            ),
        ] {
            let message: Vec<_> = (0..size).map(|place| place as u8).collect();
            assert_eq!(digest(&message), right, "{size} bytes");
        }
    }

    #[test]
    fn sixteen_digits() {
        assert_eq!(fingerprint(b"abc"), "ba7816bf8f01cfea");
    }
}
