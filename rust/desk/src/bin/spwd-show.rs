//! A plan shown to people: the verdict in words, the network, the table of slots; and when the next turn of a request is under it.
#![forbid(unsafe_code)]

use desk::arguments::{given, numbers, one_file, own, version, Given, Options};
use desk::html;
use desk::judge::judge;
use desk::page::page;
use desk::source::Source;
use desk::streams::{fail, put, put_lines, say, Input, Status};
use desk::taken::{taken, Form};
use desk::turns::{Question, Wanted};
use desk::words::{self, Advice};
use std::ffi::OsString;
use std::process::ExitCode;

const NAME: &str = "spwd-show";

const HELP: &str = "\
spwd-show [--text | --bytes] [FILE]   the verdict of the box on a plan, in words, and what is behind it
spwd-show --next I T D ..             the turns of initiator I for a request of D bytes to target T
spwd-show --next I T D SLOT ..        the next one after this slot
spwd-show --page ..                   the same as a page to print and tape to the box: one HTML file
spwd-show --help                      this, as -h; --version says which one this is

FILE is a plan file, or the text form of a plan; which, is seen by what is in it. --text says that it is the text
form, --bytes that it is a plan file, whatever is in it. Without FILE, or with -, standard input is read.

An accepted plan is shown as a box holds it: its fingerprint, devices, links, paths with the replies that have a
way of their own, intervals, slot times, the table of sixty-four slots, and targets of entries that the slot
times never permit.
Of a refused plan the field, or the entries, paths and replies, that the refusal is about are shown; of a plan
with no entry what it has, and the initiators that are left without one. Then come all further faults, and the
table of the entries that are not at fault.

A page has the plan's fingerprint, its network and its table drawn, its paths, the times of a plan with slot
times, and the turns of each pair; of a refused plan what can be read, with what is at fault marked. It needs
nothing else, no network and no script, and prints on A4.
    --title WORDS   in the place of the file's name
    --date WORDS    a date, as you write it; without it the page has none

A turn is a slot at which an entry of the initiator stands that permits the target with this length. How far on
the next one is, the box counts from a slot: 1 is the slot after it, 64 that slot again. It goes by the plan
alone: nothing waits or runs.
    I      an initiator of the plan
    T      a target
    D      data bytes: 0 to 4,096
    SLOT   0 to 63, in decimal digits; a file with such a name is ./NAME

Status: 0 accepted, and what was asked of the plan is answered; 1 the box refuses the plan, or what was asked;
2 the text has lines that are no item; 3 wrong arguments, or a file that cannot be read or written. A reader
that closes the pipe early is no failure.
";

const OPTIONS: [(&str, usize); 6] = [
    ("--text", 0),
    ("--bytes", 0),
    ("--next", 3),
    ("--page", 0),
    ("--title", 1),
    ("--date", 1),
];

/// The most bytes that are read; a plan has far fewer.
const MOST: u64 = 16 << 20;

fn main() -> ExitCode {
    let status = match given(std::env::args_os().skip(1), &OPTIONS) {
        Ok(Given::Help) => put(HELP.as_bytes()).map(|()| Status::Done),
        Ok(Given::Version) => put(version(NAME).as_bytes()).map(|()| Status::Done),
        Ok(Given::Words { options, others }) => run(&options, others),
        Err(wrong) => Err(see(&wrong)),
    };
    status.unwrap_or_else(|what| fail(NAME, &what)).into()
}

fn see(wrong: &str) -> String {
    format!("{wrong}; see {NAME} --help")
}

fn run(options: &Options, mut others: Vec<OsString>) -> Result<Status, String> {
    let has = |name| options.iter().any(|(option, _)| *option == name);
    let form = Form::of(has("--text"), has("--bytes")).map_err(see)?;
    let page = html::head::Given::among(options, "--next").map_err(|wrong| see(&wrong))?;
    let question = question(options, &mut others).map_err(|wrong| see(&wrong))?;
    let show = |source: &Source| match &page {
        Some(given) => show_page(source, given),
        None => show(source, question),
    };
    let input = Input::of(one_file(others).map_err(|wrong| see(&wrong))?);
    match taken(NAME, &input, &input.read(MOST)?, form) {
        Ok(source) => show(&source),
        Err(complaints) => {
            say(&complaints);
            Ok(Status::Complaints)
        }
    }
}

/// The words of `--next`, and the slot, which is taken out of the other words.
fn question(options: &Options, others: &mut Vec<OsString>) -> Result<Option<Question>, String> {
    let Some(words) = own(options, "--next")? else {
        return Ok(None);
    };
    let [initiator, target, length] = numbers(words, [255, 255, 65_535])?;
    let wanted = Wanted {
        initiator: initiator as u8,
        target: target as u8,
        length: length as u16,
    };
    let slot = slot(others)?;
    Ok(Some(Question { wanted, slot }))
}

/// The first word that is all digits, if there is one. Of two words that are not, one should have been.
fn slot(others: &mut Vec<OsString>) -> Result<Option<u8>, String> {
    let digits = |word: &OsString| {
        let word = word.to_string_lossy();
        !word.is_empty() && word.bytes().all(|digit| digit.is_ascii_digit())
    };
    match (others.iter().position(digits), &others[..]) {
        (Some(place), _) => {
            let [slot] = numbers(&[others.remove(place)], [255])?;
            Ok(Some(slot as u8))
        }
        (None, [one, other]) => {
            let (one, other) = (one.to_string_lossy(), other.to_string_lossy());
            Err(format!(
                "one file at a time, and neither {one} nor {other} is a slot in decimal digits"
            ))
        }
        _ => Ok(None),
    }
}

fn show(source: &Source, question: Option<Question>) -> Result<Status, String> {
    let (lines, taken) = match question {
        Some(question) => answer(source, &question),
        None => page(source),
    };
    put_lines(&lines)?;
    Ok(if taken { Status::Done } else { Status::Refused })
}

fn show_page(source: &Source, given: &html::head::Given) -> Result<Status, String> {
    let (text, taken) = html::page::page(source, given);
    put(text.as_bytes())?;
    Ok(if taken { Status::Done } else { Status::Refused })
}

/// What the box answers under the plan, or its refusal with what to do; and whether it answers. A plan that is refused is shown.
fn answer(source: &Source, question: &Question) -> (Vec<String>, bool) {
    let judged = judge(source.bytes());
    if !judged.verdict.is_accepted() {
        return page(source);
    }
    match question.answer(&judged.desk) {
        Ok(lines) => (lines, true),
        Err(refusal) => {
            let what = question.to_string();
            let mut lines = question.wanted.refused(&what, refusal, &judged.desk);
            lines.push(words::refusal(refusal.number()).advice());
            (lines, false)
        }
    }
}
