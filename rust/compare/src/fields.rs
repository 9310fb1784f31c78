//! A plan file as its fields.

/// A field with its header.
pub fn field(tag: u8, content: &[u8]) -> Vec<u8> {
    let [high, low] = (content.len() as u16).to_be_bytes();
    [&[tag, high, low], content].concat()
}

/// The field of the intervals.
pub fn intervals(least: u32, greatest: u32) -> Vec<u8> {
    field(5, &[least.to_be_bytes(), greatest.to_be_bytes()].concat())
}

/// Puts a field behind all those of its tag and of lower ones.
pub fn put(fields: &mut Vec<Vec<u8>>, field: Vec<u8>) {
    let place = fields.iter().rposition(|other| other[0] <= field[0]);
    fields.insert(place.map_or(0, |place| place + 1), field);
}

/// The fields of a file, as far as they are whole, and what is left.
pub fn split(file: &[u8]) -> (Vec<Vec<u8>>, &[u8]) {
    let mut fields = Vec::new();
    let mut rest = file;
    while let [_, high, low, content @ ..] = rest {
        let length = usize::from(u16::from_be_bytes([*high, *low]));
        if content.len() < length {
            break;
        }
        let (first, next) = rest.split_at(3 + length);
        fields.push(first.to_vec());
        rest = next;
    }
    (fields, rest)
}
