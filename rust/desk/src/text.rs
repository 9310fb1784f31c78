//! The way back: a plan file as text that compiles to the same bytes.

use crate::fields::{fields, numbers, Field, Item, Times};
use spwd::Latencies;

/// Bytes to a line where a field has no form of its own.
const BYTES: usize = 16;

/// Lines of text for any bytes: a well formed field in its words, anything else as bytes under a comment.
pub fn text_of(file: &[u8]) -> Vec<String> {
    fields(file).iter().flat_map(lines).collect()
}

fn lines(field: &Field) -> Vec<String> {
    match field.item() {
        Some(Item::Device(device)) if device.kind == 0 => vec![format!("node {}", device.number)],
        Some(Item::Device(device)) if device.kind == 1 => vec![format!("router {}", device.number)],
        Some(Item::Device(device)) => bytes(
            field,
            &format!(
                "a device of kind {}; kinds are 0 (node) and 1 (router)",
                device.kind
            ),
        ),
        Some(Item::Link(_)) => vec![format!("link {}", numbers(field.content()))],
        Some(Item::Path(_)) => vec![format!("path {}", numbers(field.content()))],
        Some(Item::Entry(_)) => vec![format!("entry {}", numbers(field.content()))],
        Some(Item::Timing(timing)) => {
            vec![format!("intervals {} {}", timing.least, timing.greatest)]
        }
        Some(Item::Times(times)) => vec![times_line(&times)],
        Some(Item::Reply(_)) => vec![format!("reply {}", numbers(field.content()))],
        None => bytes(field, &not_well_formed(field)),
    }
}

/// The line of a plan's times.
pub fn times_line(times: &Times) -> String {
    let Times {
        rate, slot_length, ..
    } = times;
    let Latencies { a, d, f, g } = times.latencies;
    format!("times {rate} {a} {d} {f} {g} {slot_length}")
}

/// Why a field gives no item.
pub fn not_well_formed(field: &Field) -> String {
    let left = field.content().len();
    let Some(length) = field.length() else {
        let left = field.bytes.len();
        return format!("the file ends here: of 3 bytes of tag and length it has {left}");
    };
    match field.row() {
        _ if !field.is_whole() => {
            format!("the file ends in this field: of {length} bytes of content it has {left}")
        }
        None => format!(
            "tag {:02x}, length {length}; tags are 01 to 07",
            field.tag()
        ),
        Some(row) => {
            let right = match row.tag {
                3 | 7 => "3 to 10 (1 to 8 links)".to_string(),
                4 => "4 to 19 (1 to 16 targets)".to_string(),
                _ => row.least.to_string(),
            };
            let (tag, name) = (row.tag, row.name);
            format!("tag {tag:02x} ({name}), length {length}; right is {right}")
        }
    }
}

fn bytes(field: &Field, comment: &str) -> Vec<String> {
    let mut lines = vec![format!("# offset {}: {comment}", field.offset)];
    for part in field.bytes.chunks(BYTES) {
        let hex: Vec<_> = part.iter().map(|byte| format!("{byte:02x}")).collect();
        lines.push(format!("bytes {}", hex.join(" ")));
    }
    lines
}
