//! The text form of a plan: one item a line, `#` starts a comment. A line becomes the bytes of its field, whatever its numbers say; a line
//! that names a device becomes none.

use crate::fields::field;
use crate::layout::{printable, shortened, stand};
use crate::names::{name_of, Named, Names};
use crate::number::{Number, GREATEST, LEAST, RATE, SIXTY_FOUR, SPAN, TIME};
use crate::plan::Plan;
use std::collections::BTreeSet;

/// A kind of line: its first word, how many words follow, what they are, and the form as a person writes it.
struct Form {
    word: &'static str,
    least: usize,
    most: Most,
    /// Of the words that are numbers; the last also of those that follow.
    numbers: &'static [Number],
    form: &'static str,
}

/// How many words may follow.
enum Most {
    Words(usize),
    /// As many as a field can have bytes; of these kinds of things, which stand behind so many words, the box takes so many.
    Field {
        behind: usize,
        things: usize,
        name: &'static str,
    },
    Any,
}

const LINKS: Most = Most::Field {
    behind: 2,
    things: 8,
    name: "links",
};

const TARGETS: Most = Most::Field {
    behind: 3,
    things: 16,
    name: "targets",
};

const FORMS: [Form; 10] = [
    form("node", 1, Most::Words(1), &[SIXTY_FOUR], "node N"),
    form("router", 1, Most::Words(1), &[SIXTY_FOUR], "router N"),
    form(
        "link",
        3,
        Most::Words(3),
        &[SIXTY_FOUR],
        "link N A B (link N joins devices A and B)",
    ),
    form(
        "path",
        3,
        LINKS,
        &[SIXTY_FOUR],
        "path I T L.. (from initiator I to target T over the links L)",
    ),
    form(
        "entry",
        4,
        TARGETS,
        &[SIXTY_FOUR, SIXTY_FOUR, SPAN, SIXTY_FOUR],
        "entry I S N T.. (initiator I at slot S with span N may start to the targets T)",
    ),
    form(
        "intervals",
        2,
        Most::Words(2),
        &[LEAST, GREATEST],
        "intervals LEAST GREATEST",
    ),
    form(
        "times",
        6,
        Most::Words(6),
        &TIMES,
        "times S A D F G SLOT (S Mbit/s, latencies A D F G and slot length SLOT in ns)",
    ),
    form(
        "reply",
        3,
        LINKS,
        &[SIXTY_FOUR],
        "reply I T L.. (from target T back to initiator I over the links L)",
    ),
    form(
        "name",
        2,
        Most::Any,
        &[SIXTY_FOUR],
        "name N WORDS (device N is called WORDS on pages; no part of the file)",
    ),
    form(
        "bytes",
        1,
        Most::Any,
        &[],
        "bytes HH.. (bytes as they are, two hex digits each)",
    ),
];

const TIMES: [Number; 2] = [RATE, TIME];

/// The greatest length that a field can state.
const MOST: usize = 65_535;

const fn form(
    word: &'static str,
    least: usize,
    most: Most,
    numbers: &'static [Number],
    form: &'static str,
) -> Form {
    Form {
        word,
        least,
        most,
        numbers,
        form,
    }
}

/// Whether a line with this first word may be an item.
pub fn begins_item(word: &str) -> bool {
    FORMS.iter().any(|form| form.word == word)
}

/// A line that is no item, and for each thing wrong in it what would be right.
#[derive(Debug, PartialEq, Eq)]
pub struct Complaint {
    /// Counted from 1.
    pub line: usize,
    pub text: String,
    pub right: Vec<String>,
}

/// Complaints that are said of one file; of more only how many there are.
const SAID: usize = 20;

/// Complaints as lines, "FILE:LINE: TEXT" and below it what would be right.
pub fn in_words(name: &str, complaints: &[Complaint]) -> Vec<String> {
    let mut lines = Vec::new();
    for complaint in complaints.iter().take(SAID) {
        let text = shortened(&complaint.text, 100);
        lines.push(format!("{name}:{}: {text}", complaint.line));
        let right = complaint.right.iter().take(SAID);
        lines.extend(right.map(|right| format!("    {right}")));
    }
    let more = complaints.len().saturating_sub(SAID);
    if more > 0 {
        lines.push(format!("{name}: and {more} more lines that are no item"));
    }
    lines
}

/// The bytes of a text, and which line made which of them.
#[derive(Debug, Default)]
pub struct Compiled {
    pub bytes: Vec<u8>,
    /// Of each line that made bytes: the offset of its first, its number, its text.
    lines: Vec<(usize, usize, String)>,
    pub names: Names,
}

impl Compiled {
    /// Bytes that no text made.
    pub fn of_file(bytes: Vec<u8>) -> Self {
        Self {
            bytes,
            ..Self::default()
        }
    }

    /// The number and the text of the line that made the byte at an offset.
    pub fn line_at(&self, offset: usize) -> Option<(usize, &str)> {
        if offset >= self.bytes.len() {
            return None;
        }
        let behind = self.lines.partition_point(|line| line.0 <= offset);
        let (_, number, text) = self.lines.get(behind.checked_sub(1)?)?;
        Some((*number, text))
    }
}

/// All complaints, if there is one.
pub fn compile(text: &[u8]) -> Result<Compiled, Vec<Complaint>> {
    let mut reading = Reading::default();
    // Some editors put a byte order mark in front.
    let text = text.strip_prefix("\u{feff}".as_bytes()).unwrap_or(text);
    for (index, line) in text.split(|&byte| byte == b'\n').enumerate() {
        reading.line(index + 1, line.trim_ascii());
    }
    reading.end()
}

/// A text as far as it is read.
#[derive(Default)]
struct Reading {
    compiled: Compiled,
    /// Of the lines that give devices by their words.
    devices: BTreeSet<u8>,
    named: Named,
    complaints: Vec<Complaint>,
    /// Whether a line that is no item, and no name, may have given a device.
    missing: bool,
}

impl Reading {
    fn line(&mut self, number: usize, line: &[u8]) {
        let text = printable(line);
        let item = item_of(&text);
        let words = words_of(item);
        let Some((&first, rest)) = words.split_first() else {
            return;
        };
        let read = match first {
            "name" => self.name(number, &text, rest, &String::from_utf8_lossy(line)),
            _ => self.item(number, item, first, rest),
        };
        self.missing |= read.is_err() && first != "name";
        if let Err(right) = read {
            self.complain(number, text, right);
        }
    }

    fn complain(&mut self, line: usize, text: String, right: Vec<String>) {
        self.complaints.push(Complaint { line, text, right });
    }

    fn item(
        &mut self,
        number: usize,
        item: &str,
        first: &str,
        words: &[&str],
    ) -> Result<(), Vec<String>> {
        let bytes = bytes_of(first, words)?;
        if let ("node" | "router", &[.., device, _]) = (first, &bytes[..]) {
            self.devices.insert(device);
        }
        let start = self.compiled.bytes.len();
        self.compiled.lines.push((start, number, item.to_string()));
        self.compiled.bytes.extend(bytes);
        Ok(())
    }

    /// The words that are shown, and the line as it is: what nobody sees has no place in a name.
    fn name(
        &mut self,
        number: usize,
        text: &str,
        words: &[&str],
        line: &str,
    ) -> Result<(), Vec<String>> {
        form_of("name", words.len())?;
        let device = Number::up_to(SIXTY_FOUR.most).read(words[0]);
        let name = name_of(&words_of(item_of(line))[2..]);
        match (device, name) {
            (Ok(device), Ok(name)) => {
                let given = self.named.give(number, text, device as u8, name);
                given.map_err(|wrong| vec![wrong])
            }
            (device, name) => Err([device.err(), name.err()].into_iter().flatten().collect()),
        }
    }

    /// A name whose device is missing is no fault of its line where a line that might give the device is faulty.
    fn end(mut self) -> Result<Compiled, Vec<Complaint>> {
        let given = Plan::of(&self.compiled.bytes).devices;
        self.devices
            .extend(given.iter().map(|device| device.number));
        if !self.missing {
            for (line, text, wrong) in self.named.without(&self.devices) {
                self.complain(line, text, vec![wrong]);
            }
        }
        if !self.complaints.is_empty() {
            self.complaints.sort_by_key(|complaint| complaint.line);
            return Err(self.complaints);
        }
        self.compiled.names = self.named.names;
        Ok(self.compiled)
    }
}

/// What stands before a comment.
fn item_of(line: &str) -> &str {
    let item = line.split('#').next();
    item.unwrap_or_default().trim_ascii()
}

fn words_of(item: &str) -> Vec<&str> {
    let words = item.split([' ', '\t']);
    words.filter(|word| !word.is_empty()).collect()
}

/// The form that begins with a word, if so many may follow it.
fn form_of(first: &str, words: usize) -> Result<&'static Form, Vec<String>> {
    let Some(form) = FORMS.iter().find(|form| form.word == first) else {
        let names: Vec<_> = FORMS.iter().map(|form| form.word).collect();
        return Err(vec![format!(
            "'{}' begins no item; an item begins with one of: {}",
            shortened(first, 60),
            names.join(", ")
        )]);
    };
    match form.count(words) {
        None => Ok(form),
        Some(right) => Err(vec![format!(
            "behind '{}' {} and should stand {right}: {}",
            form.word,
            stand(words),
            form.form
        )]),
    }
}

impl Form {
    /// What is right where there are too few or too many words.
    fn count(&self, words: usize) -> Option<String> {
        let least = self.least;
        match self.most {
            Most::Words(most) if most == least => (words != least).then(|| least.to_string()),
            _ if words < least => Some(format!("at least {least}")),
            Most::Field {
                behind,
                things,
                name,
            } if words > MOST => {
                let most = behind + things;
                Some(format!("at most {most} ({things} {name})"))
            }
            _ => None,
        }
    }

    /// The bytes of each word, or all complaints about them.
    fn written(&self, words: &[&str]) -> Result<Vec<u8>, Vec<String>> {
        written(words, self.numbers)
    }
}

fn bytes_of(first: &str, words: &[&str]) -> Result<Vec<u8>, Vec<String>> {
    let form = form_of(first, words.len())?;
    match form.word {
        "node" => Ok(field(1, &[form.written(words)?, vec![0]].concat())),
        "router" => Ok(field(1, &[form.written(words)?, vec![1]].concat())),
        "link" => Ok(field(2, &form.written(words)?)),
        "path" => Ok(field(3, &form.written(words)?)),
        "entry" => Ok(field(4, &form.written(words)?)),
        "intervals" => Ok(field(5, &form.written(words)?)),
        "times" => times(words),
        "reply" => Ok(field(7, &form.written(words)?)),
        _ => each(words.iter().map(|word| hex(word))),
    }
}

/// All values, or all complaints.
fn each<T>(values: impl Iterator<Item = Result<T, String>>) -> Result<Vec<T>, Vec<String>> {
    let (mut right, mut wrong) = (Vec::new(), Vec::new());
    for value in values {
        match value {
            Ok(value) => right.push(value),
            Err(complaint) => wrong.push(complaint),
        }
    }
    if wrong.is_empty() {
        Ok(right)
    } else {
        Err(wrong)
    }
}

/// Each word as a number of its kind, high byte first; the last kind is also that of the words that follow.
fn written(words: &[&str], numbers: &[Number]) -> Result<Vec<u8>, Vec<String>> {
    let kinds = numbers.iter().chain(numbers.last().into_iter().cycle());
    let bytes = words.iter().zip(kinds).map(|(word, kind)| {
        let number = kind.read(word)?;
        Ok(kind.bytes(number))
    });
    each(bytes).map(|bytes| bytes.concat())
}

/// The field of slot times: the rate in two bytes and the other numbers in four; or all complaints about them.
pub fn times(words: &[&str]) -> Result<Vec<u8>, Vec<String>> {
    Ok(field(6, &written(words, &TIMES)?))
}

fn hex(word: &str) -> Result<u8, String> {
    let digits = word.len() == 2 && word.bytes().all(|digit| digit.is_ascii_hexdigit());
    match u8::from_str_radix(word, 16) {
        Ok(byte) if digits => Ok(byte),
        _ => Err(format!(
            "'{}' is no byte; right are two hex digits, 00 to ff",
            shortened(word, 60)
        )),
    }
}
