//! A line of a script as a person types it: blanks as they come, and a plan by the name of its file; or why it is no command.
//!
//! Which line is a command is for `script`, which is as strict as `replay`. Here it is given the line that was meant.

use crate::layout::{printable, shortened, stand};
use crate::number::{Number, BYTE, KIND, LENGTH, LONG, RATE, ROUTERS, SHORT, SIXTY_FOUR, TIME};
use crate::script::{line_of, Command, Line, BUFFER, FILE, LINE, ROOM};

#[derive(Debug, PartialEq, Eq)]
pub enum Typed {
    /// An empty line, or one that begins with `#`.
    Skip,
    Command(Command),
    /// A file by its name, and what it is for.
    File(Use, String),
    /// None of these: what is wrong, and what would be right.
    Wrong(Vec<String>),
}

#[derive(Clone, Copy, Debug, PartialEq, Eq)]
pub enum Use {
    Load,
    Holds,
}

pub fn typed(line: &[u8]) -> Typed {
    let size = line.len();
    let line = line.trim_ascii();
    let words: Vec<_> = words_of(line).collect();
    match words.first() {
        None => Typed::Skip,
        Some(word) if word.starts_with(b"#") => Typed::Skip,
        Some(_) if size > LINE => {
            let right = format!("this line is too long; right are at most {LINE} bytes");
            Typed::Wrong(vec![right])
        }
        Some(word) => match (purpose(word), &words[1..]) {
            (Some(purpose), plan) if is_file(plan) => file(purpose, &line[word.len()..]),
            _ => command(&words),
        },
    }
}

fn words_of(line: &[u8]) -> impl Iterator<Item = &[u8]> {
    let words = line.split(|byte| matches!(byte, b' ' | b'\t'));
    words.filter(|word| !word.is_empty())
}

fn purpose(word: &[u8]) -> Option<Use> {
    match word {
        b"load" => Some(Use::Load),
        b"holds" => Some(Use::Holds),
        _ => None,
    }
}

/// Whether words name a file: what is all hex digits is hex.
fn is_file(words: &[&[u8]]) -> bool {
    let hex = |word: &&[u8]| *word == b"-" || word.iter().all(u8::is_ascii_hexdigit);
    !words.is_empty() && !words.iter().all(hex)
}

fn file(purpose: Use, name: &[u8]) -> Typed {
    match std::str::from_utf8(name.trim_ascii()) {
        Ok(name) => Typed::File(purpose, name.to_string()),
        Err(_) => Typed::Wrong(vec!["the name of this file is no UTF-8".to_string()]),
    }
}

fn command(words: &[&[u8]]) -> Typed {
    match line_of(&words.join(&b' ')) {
        Line::Skip => Typed::Skip,
        Line::Command(command) => Typed::Command(command),
        Line::NoCommand => {
            let words: Vec<_> = words.iter().map(|word| printable(word)).collect();
            let words: Vec<_> = words.iter().map(String::as_str).collect();
            Typed::Wrong(why(&words))
        }
    }
}

/// A command: its name, the numbers that follow it, and the form as a person writes it, with what it says.
struct Form {
    word: &'static str,
    numbers: &'static [Number],
    form: &'static str,
    says: &'static str,
}

const RECORDS: Number = Number::up_to(BUFFER as u32);
const WRITTEN: Number = Number::up_to(ROOM as u32);

const FORMS: [Form; 14] = [
    form("load", &[], "load HEX or load FILE", PLAN),
    form("clear", &[], "clear", ""),
    form(
        "tc",
        &[SIXTY_FOUR, LONG, RECORDS],
        "tc BYTE CLOCK BUF",
        "a time-code, and the size of the record buffer",
    ),
    form(
        "req",
        &[SIXTY_FOUR, SIXTY_FOUR, KIND, LENGTH],
        "req I T K L",
        "a request of initiator I to target T, kind K 0 read or 1 write, L data bytes",
    ),
    form(
        "rep",
        &[SIXTY_FOUR, SHORT, BYTE],
        "rep I NUM STATUS",
        "a reply to transaction NUM of initiator I",
    ),
    form("clk", &[LONG], "clk T", "a clock reading"),
    form(
        "out",
        &[WRITTEN],
        "out ROOM",
        "the plan written out into ROOM bytes",
    ),
    form("wd", &[], "wd", ""),
    form(
        "setwd",
        &[LONG; 5],
        "setwd LAST SEEN REPORTED LEAST GREATEST",
        "",
    ),
    form(
        "sheet",
        &[ROUTERS, RATE, LENGTH, TIME, TIME, TIME, TIME],
        "sheet R S D A DD F G",
        "R routers, S Mbit/s, D data bytes, latencies A DD F G in ns",
    ),
    form(
        "sheet2",
        &[ROUTERS, ROUTERS, RATE, LENGTH, TIME, TIME, TIME, TIME],
        "sheet2 RC RR S D A DD F G",
        "RC routers on the command's way, RR on the reply's, then as for sheet",
    ),
    form(
        "next",
        &[SIXTY_FOUR, SIXTY_FOUR, LENGTH, SIXTY_FOUR],
        "next I T D SLOT",
        "the next turn of initiator I to target T with D data bytes, after SLOT",
    ),
    form("blank", &[], "blank", ""),
    form("holds", &[], "holds HEX or holds FILE", PLAN),
];

/// Whether a line with this first word may be a command.
pub fn begins_command(word: &str) -> bool {
    FORMS.iter().any(|form| form.word == word)
}

const PLAN: &str = "a plan file in lowercase hex, - for the empty one; or a plan file or its text";

const fn form(
    word: &'static str,
    numbers: &'static [Number],
    form: &'static str,
    says: &'static str,
) -> Form {
    Form {
        word,
        numbers,
        form,
        says,
    }
}

impl Form {
    /// How many words follow.
    fn count(&self) -> usize {
        if purpose(self.word.as_bytes()).is_some() {
            return 1;
        }
        self.numbers.len()
    }

    /// The form, and what it says.
    fn whole(&self) -> String {
        match (self.form, self.says) {
            (form, "") => form.to_string(),
            (form, says) => format!("{form} ({says})"),
        }
    }

    /// What is wrong with so many words as should follow.
    fn wrong(&self, words: &[&str]) -> Vec<String> {
        if self.numbers.is_empty() {
            return words.iter().map(|word| no_hex(word)).collect();
        }
        let numbers = words.iter().zip(self.numbers);
        let wrong = numbers.filter_map(|(word, number)| number.read(word).err());
        wrong.collect()
    }
}

/// Why words are no command: the first of them, how many they are, or each that is wrong.
fn why(words: &[&str]) -> Vec<String> {
    let (first, rest) = words.split_first().unwrap_or((&"", &[]));
    let Some(form) = FORMS.iter().find(|form| form.word == *first) else {
        let names: Vec<_> = FORMS.iter().map(|form| form.word).collect();
        return vec![format!(
            "'{}' begins no command; a command begins with one of: {}",
            shortened(first, 60),
            names.join(", ")
        )];
    };
    let (found, count) = (rest.len(), form.count());
    let mut why = if found == count {
        form.wrong(rest)
    } else {
        vec![format!(
            "behind '{first}' {} and should stand {count}: {}",
            stand(found),
            form.whole()
        )]
    };
    if rest.iter().any(|word| word.starts_with('#')) {
        why.push("a comment has a line of its own, which begins with #".to_string());
    }
    why
}

/// Why hex digits are no bytes.
fn no_hex(word: &str) -> String {
    let (size, most, name) = (word.len(), 2 * FILE, shortened(word, 60));
    let wrong = match size {
        _ if size > most => {
            return format!("these are {size} hex digits; right are at most {most}")
        }
        _ if size % 2 == 0 => {
            format!("'{name}' has digits of upper case; right are 0 to 9 and a to f")
        }
        _ => format!("'{name}' has {size} hex digits; right are two for each byte"),
    };
    format!("{wrong}; a file of this name is ./{name}")
}
