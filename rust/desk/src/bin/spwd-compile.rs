//! A plan's text form to the bytes of its plan file, and back.
#![forbid(unsafe_code)]

use desk::arguments::{asked, version, Asked};
use desk::fingerprint::fingerprint;
use desk::further::{further, sifted};
use desk::judge::{in_words, judge, place, Judged};
use desk::kind::{kind, Kind};
use desk::page::behind;
use desk::source::Source;
use desk::streams::{fail, put, put_lines, say, Input, Status};
use desk::taken::{hint, recognised, taken, Form};
use desk::text::text_of;
use spwd::{Fault, Verdict};
use std::ffi::OsString;
use std::process::ExitCode;

const NAME: &str = "spwd-compile";

const HELP: &str = "\
spwd-compile FILE              the text form of a plan to its plan file, on standard output
spwd-compile --hex FILE        the same in one line of lowercase hex, as `load` of a script takes it
spwd-compile --canonical FILE  the plan in the order in which a box writes it out, whose first 16 digits of
                               sha256sum are its fingerprint; FILE may be a plan file here. Also with --hex
spwd-compile --force FILE      also a plan that the box refuses, in the order of the text. Also with --hex
spwd-compile --text FILE       a plan file, or any bytes, to text that compiles to the same bytes; names are lost
spwd-compile --help            this, as -h; --version says which one this is

FILE may be - for standard input.

The text form has one item a line, and # starts a comment:
    node N                     a device that is a node
    router N                   a device that is a router
    link N A B                 link N joins devices A and B
    path I T L..               the path from initiator I to target T over the links L
    entry I S N T..            initiator I at slot S with span N may start transactions to the targets T
    intervals LEAST GREATEST   of the time-codes
    times S A D F G SLOT       slot times: S Mbit/s, latencies A, D, F, G and slot length SLOT in ns; a plan
                               may go without them
    reply I T L..              the reply's way from target T back to initiator I over the links L; without one it
                               goes back over the links of the path
    name N WORDS               device N is called so in shows and pages; no part of the file, and may stand anywhere
    bytes HH..                 bytes as they are, in hex
The items stand in this order: devices, links, paths, entries, intervals, times, replies.

A line that is none of these is said on standard error with what would be right, and nothing is written.
Else the verdict of the box is said there, with the fingerprint of the plan; or, if it refuses the plan, with the
lines that are at fault, and nothing is written unless --force was given.

Status: 0 accepted (with --text: done), 1 the box refuses the plan, with --force too, 2 the text has lines that
are no item, 3 wrong arguments, or a file that cannot be read or written.
A reader that closes the pipe early is no failure.
";

/// The most bytes of a text, and of a plan file to make a text of.
const TEXT: u64 = 16 << 20;
const FILE: u64 = 1 << 20;

const OPTIONS: [&str; 4] = ["--hex", "--canonical", "--force", "--text"];

fn main() -> ExitCode {
    let status = match asked(std::env::args_os().skip(1), &OPTIONS) {
        Ok(Asked::Help) => put(HELP.as_bytes()).map(|()| Status::Done),
        Ok(Asked::Version) => put(version(NAME).as_bytes()).map(|()| Status::Done),
        Ok(Asked::Run { options, file }) => run(&options, file),
        Err(wrong) => Err(see(&wrong)),
    };
    status.unwrap_or_else(|what| fail(NAME, &what)).into()
}

fn see(wrong: &str) -> String {
    format!("{wrong}; see {NAME} --help")
}

/// What is to be written.
struct Wanted {
    hex: bool,
    canonical: bool,
    force: bool,
}

fn run(options: &[&str], file: Option<OsString>) -> Result<Status, String> {
    let has = |name| options.contains(&name);
    let input = Input::of(file.clone());
    match (has("--text"), file) {
        (_, None) => Err(see("a file is missing")),
        (true, _) if options.iter().any(|&option| option != "--text") => {
            Err(see("--text goes with no other option"))
        }
        (true, _) => back(&input),
        (false, _) => {
            let wanted = Wanted {
                hex: has("--hex"),
                canonical: has("--canonical"),
                force: has("--force"),
            };
            compile(&input, &wanted)
        }
    }
}

/// As a script has it: `-` for no byte.
fn hex_line(bytes: &[u8]) -> Vec<u8> {
    let digits: String = bytes.iter().map(|byte| format!("{byte:02x}")).collect();
    let digits = if bytes.is_empty() { "-" } else { &digits };
    format!("{digits}\n").into_bytes()
}

/// The plan of a text; where a canonical file is wanted, of a plan file too.
fn source(input: &Input, wanted: &Wanted) -> Result<Result<Source, Vec<String>>, String> {
    let read = input.read(TEXT)?;
    Ok(if wanted.canonical {
        recognised(input, &read)
    } else {
        taken(NAME, input, &read, Form::Text)
    })
}

/// Writes the plan, and says the verdict on it.
fn compile(input: &Input, wanted: &Wanted) -> Result<Status, String> {
    let source = match source(input, wanted)? {
        Ok(source) => source,
        Err(complaints) => {
            say(&complaints);
            return Ok(Status::Complaints);
        }
    };
    let judged = judge(source.bytes());
    let Verdict::Refused(fault) = judged.verdict else {
        let bytes = if wanted.canonical {
            &judged.held
        } else {
            source.bytes()
        };
        put(&wanted.form(bytes))?;
        say(&[accepted(&source, &judged)]);
        return Ok(Status::Done);
    };
    let mut lines = refused(&source, &fault);
    lines.push(match (wanted.canonical, wanted.force) {
        (true, _) => "nothing is written: a plan that is refused has no canonical file".to_string(),
        (_, false) => "nothing is written; --force writes it all the same".to_string(),
        (_, true) => {
            put(&wanted.form(source.bytes()))?;
            "written all the same, for --force".to_string()
        }
    });
    say(&lines);
    Ok(Status::Refused)
}

impl Wanted {
    fn form(&self, bytes: &[u8]) -> Vec<u8> {
        if self.hex {
            hex_line(bytes)
        } else {
            bytes.to_vec()
        }
    }
}

/// The verdict in a line.
fn accepted(source: &Source, judged: &Judged) -> String {
    let (name, verdict) = (&source.name, &judged.verdict);
    let counts = place(verdict).unwrap_or_default();
    let fingerprint = fingerprint(&judged.held);
    format!("{name}: {verdict}: {counts}, fingerprint {fingerprint}")
}

/// The verdict in words, with what it is about and what else is at fault.
fn refused(source: &Source, fault: &Fault) -> Vec<String> {
    let mut lines = in_words(&Verdict::Refused(*fault));
    lines[0] = format!("{}: {}", source.name, lines[0]);
    lines.extend(hint(source).map(|hint| format!("    {hint}")));
    lines.extend(behind(source, fault));
    lines.extend(further(source, &sifted(source), fault));
    lines
}

/// Text of any bytes; of what is text already that is said.
fn back(input: &Input) -> Result<Status, String> {
    let bytes = input.read(FILE)?;
    let mut lines = vec![format!("# verdict: {}", judge(&bytes).verdict)];
    lines.extend(text_of(&bytes));
    put_lines(&lines)?;
    if kind(&bytes) == Kind::Text {
        let name = input.name();
        say(&[format!(
            "{name}: this looks like a plan in text already: without --text a plan file is made of it"
        )]);
    }
    Ok(Status::Done)
}
