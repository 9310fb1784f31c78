//! A plan as it is given, in text or as a plan file: as the options say, else as its content says, else as its name does.

use crate::kind::{kind, Kind};
use crate::source::Source;
use crate::streams::{say, Input};

/// What the options say that a plan is given as.
#[derive(Clone, Copy, Debug, PartialEq, Eq)]
pub enum Form {
    Text,
    Bytes,
    Unsaid,
}

impl Form {
    /// By whether `--text` and `--bytes` stand among the options.
    pub fn of(text: bool, bytes: bool) -> Result<Self, &'static str> {
        match (text, bytes) {
            (true, true) => Err("--text and --bytes exclude each other"),
            (true, false) => Ok(Form::Text),
            (false, true) => Ok(Form::Bytes),
            (false, false) => Ok(Form::Unsaid),
        }
    }
}

/// The plan, or the complaints about its text. Where its content was stronger than its name, the program says so.
pub fn taken(program: &str, input: &Input, read: &[u8], form: Form) -> Result<Source, Vec<String>> {
    let text = is_text(input, read, form);
    if form == Form::Unsaid && text != input.is_plan() {
        let (form, other) = if text {
            ("a plan in text", "--bytes takes it as a plan file")
        } else {
            ("a plan file", "--text takes it as text")
        };
        let name = input.name();
        say(&[format!("{program}: {name}: taken as {form}; {other}")]);
    }
    plan(input, read, text)
}

/// The same without options and without a word.
pub fn recognised(input: &Input, read: &[u8]) -> Result<Source, Vec<String>> {
    plan(input, read, is_text(input, read, Form::Unsaid))
}

fn is_text(input: &Input, read: &[u8], form: Form) -> bool {
    match (form, kind(read)) {
        (Form::Text, _) => true,
        (Form::Bytes, _) => false,
        (Form::Unsaid, Kind::Text) => true,
        (Form::Unsaid, Kind::Plan) => false,
        (Form::Unsaid, _) => input.is_plan(),
    }
}

/// Behind complaints about lines stands what it looks like, if that is no plan in text. Of what has no lines it is all that is said.
fn plan(input: &Input, read: &[u8], text: bool) -> Result<Source, Vec<String>> {
    let name = input.name();
    if !text {
        return Ok(Source::file(name, read.to_vec()));
    }
    let kind = kind(read);
    let lines = matches!(kind, Kind::Text | Kind::Script | Kind::Words | Kind::Other);
    Source::text(name, read).map_err(|mut complaints| {
        complaints.retain(|_| lines);
        let hint = kind.not_text();
        complaints.extend(hint.map(|hint| format!("{}: {hint}", input.name())));
        complaints
    })
}

/// What a plan file looks like that is none; nothing of bytes that a text made.
pub fn hint(source: &Source) -> Option<String> {
    let hint = kind(source.bytes()).not_a_plan_file();
    hint.filter(|_| source.line_at(0).is_none())
}
