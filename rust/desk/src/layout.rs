//! Lines for people: printable text, lists that are wrapped, bytes in hex.

use crate::invisible::is_invisible;

/// The width that lists are wrapped at.
pub const WIDTH: usize = 80;

/// Text that a terminal shows as it is: what is no UTF-8 is replaced, and what nobody would see is shown as its code.
pub fn printable(bytes: &[u8]) -> String {
    let mut text = String::new();
    for character in String::from_utf8_lossy(bytes).chars() {
        match character {
            '\t' => text.push(character),
            _ if is_invisible(character) => text.extend(character.escape_default()),
            _ => text.push(character),
        }
    }
    text
}

/// At most `most` characters of a text, with "..." where there are more.
pub fn shortened(text: &str, most: usize) -> String {
    match text.char_indices().nth(most) {
        Some((end, _)) => format!("{}...", &text[..end]),
        None => text.to_string(),
    }
}

/// How many words there are: "stands 1 word", "stand 3 words".
pub fn stand(count: usize) -> String {
    match count {
        1 => "stands 1 word".to_string(),
        _ => format!("stand {count} words"),
    }
}

/// Bytes in hex with one space between, at most 32 of them.
pub fn hex(bytes: &[u8]) -> String {
    const MOST: usize = 32;
    let words: Vec<_> = bytes.iter().map(|byte| format!("{byte:02x}")).collect();
    if words.len() > MOST {
        return format!("{} ... ({} bytes)", words[..MOST].join(" "), bytes.len());
    }
    words.join(" ")
}

/// Words behind a head, in lines of at most `WIDTH`; further lines are indented as far as the head reaches.
pub fn wrapped(head: &str, words: &[String]) -> Vec<String> {
    let mut lines = Vec::new();
    let mut line = head.to_string();
    let mut empty = true;
    for word in words {
        if !empty && line.len() + 1 + word.len() > WIDTH {
            lines.push(std::mem::replace(&mut line, " ".repeat(head.len())));
        }
        line.push(' ');
        line += word;
        empty = false;
    }
    lines.push(line);
    lines
}

/// Words with a comma behind each but the last.
pub fn commas(mut words: Vec<String>) -> Vec<String> {
    let last = words.len().saturating_sub(1);
    words.iter_mut().take(last).for_each(|word| word.push(','));
    words
}
