//! What a file is, by its content: so that one in the wrong place is known for what it is, and not called damaged.

use crate::fields::{fields, Field};
use crate::form::begins_item;
use crate::typed::begins_command;
use spwd::IMAGE_SIZE;

#[derive(Clone, Copy, Debug, PartialEq, Eq)]
pub enum Kind {
    /// A plan file: it begins with a field of a plan.
    Plan,
    /// A plan in text.
    Text,
    /// A plan file in hex.
    Hex,
    /// A script for the panel.
    Script,
    /// An image of a box.
    Image,
    Empty,
    /// Text in two bytes for a character, as some editors and shells write it.
    Wide,
    /// Text that is none of these.
    Words,
    Other,
}

pub fn kind(bytes: &[u8]) -> Kind {
    match bytes {
        [] => Kind::Empty,
        [0xff, 0xfe, ..] | [0xfe, 0xff, ..] => Kind::Wide,
        _ if is_text(bytes) => kind_of_text(&String::from_utf8_lossy(bytes)),
        _ => kind_of_bytes(bytes),
    }
}

/// Whether there is no control character but those that part words and lines. Comments may be in any script, and in an old encoding.
fn is_text(bytes: &[u8]) -> bool {
    let ascii = bytes.iter().filter(|byte| byte.is_ascii()).count();
    let control = |byte: &u8| byte.is_ascii_control() && !byte.is_ascii_whitespace();
    let encoded = std::str::from_utf8(bytes).is_ok() || 2 * ascii >= bytes.len();
    encoded && !bytes.iter().any(control)
}

fn kind_of_bytes(bytes: &[u8]) -> Kind {
    let fields = fields(bytes);
    let items = fields.iter().map_while(Field::item).count();
    match bytes.len() {
        // The first numbers of an image may look like a field.
        IMAGE_SIZE if items < fields.len() => Kind::Image,
        _ if items > 0 => Kind::Plan,
        _ => Kind::Other,
    }
}

/// Of lines that begin items and lines that begin commands the more frequent decide; a text with neither may be hex.
fn kind_of_text(text: &str) -> Kind {
    let text = text.trim_start_matches('\u{feff}');
    let lines = text
        .lines()
        .map(|line| line.split('#').next().unwrap_or_default());
    let firsts: Vec<_> = lines
        .filter_map(|line| line.split_whitespace().next())
        .collect();
    let count = |begins: fn(&str) -> bool| firsts.iter().filter(|first| begins(first)).count();
    match (count(begins_item), count(begins_command)) {
        (0, 0) if firsts.is_empty() => Kind::Text,
        (0, 0) if is_hex(text) => Kind::Hex,
        (0, 0) => Kind::Words,
        (items, commands) if items >= commands => Kind::Text,
        _ => Kind::Script,
    }
}

/// Whether these are the digits of a file that begins with a field of a plan.
fn is_hex(text: &str) -> bool {
    let digits: String = text.split_whitespace().collect();
    let digit = |digit: &u8| char::from(*digit).to_digit(16).map(|value| value as u8);
    let values: Option<Vec<_>> = digits.as_bytes().iter().map(digit).collect();
    values.is_some_and(|values| {
        let pairs = values.chunks_exact(2);
        let even = pairs.remainder().is_empty();
        let bytes: Vec<_> = pairs.map(|pair| 16 * pair[0] + pair[1]).collect();
        even && kind_of_bytes(&bytes) == Kind::Plan
    })
}

impl Kind {
    /// What it looks like and what takes it, where a plan file is wanted; nothing where that is what it is, or where nothing is known of it.
    pub fn not_a_plan_file(self) -> Option<String> {
        let text = "spwd-compile makes a plan file of it, and --text takes it as it is";
        Some(match self {
            Kind::Text => format!("this looks like a plan in text: {text}"),
            other => return other.no_plan(),
        })
    }

    /// The same where text is wanted.
    pub fn not_text(self) -> Option<String> {
        let bytes = "spwd-compile --text makes text of it, and spwd-show --bytes shows it";
        Some(match self {
            Kind::Plan => format!("this looks like a plan file and is no text: {bytes}"),
            other => return other.no_plan(),
        })
    }

    /// Of what is no plan in either form.
    fn no_plan(self) -> Option<String> {
        const BYTES: &str = "sed 's/ //g; s/../ &/g; s/^/bytes/' FILE | spwd-compile -";
        Some(match self {
            Kind::Plan | Kind::Text | Kind::Other => return None,
            Kind::Hex => {
                format!("this looks like a plan file in hex; a plan file makes of it: {BYTES}")
            }
            Kind::Script => "this looks like a script: spwd-panel plays it".to_string(),
            Kind::Image => format!(
                "this looks like an image of a box, {IMAGE_SIZE} bytes: spwd-counter says what is in it"
            ),
            Kind::Empty => "there is nothing in it".to_string(),
            Kind::Wide => {
                "this looks like text in UTF-16: save it as plain text (UTF-8 or ASCII)".to_string()
            }
            Kind::Words => "this is text, but no line of it begins an item of a plan".to_string(),
        })
    }

    /// How it is called, if it is anything.
    pub fn name(self) -> Option<&'static str> {
        Some(match self {
            Kind::Plan => "a plan file",
            Kind::Text => "a plan in text",
            Kind::Hex => "a plan file in hex",
            Kind::Script => "a script",
            Kind::Image => "an image of a box",
            Kind::Wide => "text in UTF-16",
            Kind::Words => "text",
            Kind::Empty | Kind::Other => return None,
        })
    }
}
