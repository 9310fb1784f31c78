//! The counter's questions about a box, of an image of its memory: is it blank, does it hold this plan, which plan is in it.
#![forbid(unsafe_code)]

use desk::arguments::{given, version, Given};
use desk::counter::{blank, holds, read, Answer};
use desk::judge::judge;
use desk::kind::kind;
use desk::streams::{fail, put, put_lines, say, Input, Status};
use desk::taken::{hint, recognised};
use desk::text::text_of;
use spwd::{Image, IMAGE_SIZE};
use std::ffi::OsString;
use std::process::ExitCode;

const NAME: &str = "spwd-counter";

const HELP: &str = "\
spwd-counter blank IMAGE          is the box blank? If not, what is in it
spwd-counter holds IMAGE PLAN     does the box hold this plan? If not, the first difference
spwd-counter read [--text] IMAGE  the plan in the box as a plan file, in its own order; --text: as text
spwd-counter --help               this, as -h; --version says which one this is

IMAGE is the memory of a box as a jig reads it back: the 15656 bytes of spwd_box in c/spwd.h, numbers
little-endian. PLAN is a plan file or the text of a plan; which, is seen by what is in it. One of the two may be
- for standard input.

The answer is one line:
    BLANK                     every number of the box is that of a clear
    NOT BLANK: ...            the plan by its fingerprint and counts, with what waits and is live; or that no
                              load leaves such memory, with the first number that is not 0
    HOLDS FINGERPRINT         the box holds this plan; behind it what waits or is live since the load, if anything
    OTHER PLAN: ...           both fingerprints, and the first difference
    NO PLAN: ...              there is no plan in the box
    DAMAGED: ...              no load leaves such memory
    REFUSED ...: ...          no box holds this file: the verdict on it
A fingerprint is the first 16 digits that sha256sum shows of a plan that `read` wrote.

Status: 0 yes: blank, holds, or written; 1 no; 2 the text of the plan has lines that are no item; 3 wrong
arguments, an image of a wrong size, or a file that cannot be read or written. Where it is 3 there is no answer.
";

/// The most bytes that are read; images and plans have far fewer.
const MOST: u64 = 16 << 20;

fn main() -> ExitCode {
    let status = match given(std::env::args_os().skip(1), &[("--text", 0)]) {
        Ok(Given::Help) => put(HELP.as_bytes()).map(|()| Status::Done),
        Ok(Given::Version) => put(version(NAME).as_bytes()).map(|()| Status::Done),
        Ok(Given::Words { options, others }) => run(!options.is_empty(), &others),
        Err(wrong) => Err(see(&wrong)),
    };
    status.unwrap_or_else(|what| fail(NAME, &what)).into()
}

fn see(wrong: &str) -> String {
    format!("{wrong}; see {NAME} --help")
}

fn run(text: bool, words: &[OsString]) -> Result<Status, String> {
    let names: Vec<_> = words.iter().map(|word| word.to_string_lossy()).collect();
    let names: Vec<&str> = names.iter().map(|name| name.as_ref()).collect();
    let input = |place: usize| Input::of(words.get(place).cloned());
    match (&names[..], text) {
        ([], _) => Err(see("blank, holds or read is missing")),
        (["blank" | "holds", ..], true) => Err(see("--text goes with read")),
        (["blank", _], _) => answered(blank(&image(&input(1))?)),
        (["read", _], _) => write(&input(1), text),
        (["holds", "-", "-"], _) => Err(see("image and plan cannot both be standard input")),
        (["holds", _, _], _) => compare(&input(1), &input(2)),
        (["blank" | "read"], _) => Err(see("an image is missing")),
        (["holds"], _) => Err(see("an image and a plan are missing")),
        (["holds", _], _) => Err(see("a plan is missing")),
        (["blank" | "read", _, more, ..] | ["holds", _, _, more, ..], _) => {
            Err(see(&format!("{more} is one word too many")))
        }
        ([other, ..], _) => Err(see(&format!("'{other}' is none of blank, holds and read"))),
    }
}

/// The image, or what is wrong with what was given as one.
fn image(input: &Input) -> Result<Image, String> {
    let bytes = input.read_of(MOST + 1)?;
    let image = <[u8; IMAGE_SIZE]>::try_from(&bytes[..]);
    image
        .map(Image::new)
        .map_err(|_| no_image(&input.name(), &bytes))
}

/// Both sizes, and what it looks like.
fn no_image(name: &str, bytes: &[u8]) -> String {
    let size = match bytes.len() {
        size if size as u64 > MOST => format!("more than {MOST}"),
        size => size.to_string(),
    };
    let cut = if bytes.len() < IMAGE_SIZE {
        ", so it is cut off"
    } else {
        ""
    };
    let kind = kind(bytes).name();
    let kind = kind.map_or(String::new(), |kind| format!("; this looks like {kind}"));
    format!("{name}: {size} bytes, and an image of a box has {IMAGE_SIZE}{cut}{kind}")
}

fn answered(answer: Answer) -> Result<Status, String> {
    put_lines(&[answer.line])?;
    Ok(if answer.yes {
        Status::Done
    } else {
        Status::Refused
    })
}

fn compare(of_box: &Input, of_plan: &Input) -> Result<Status, String> {
    let image = image(of_box)?;
    let read = of_plan.read(MOST)?;
    match recognised(of_plan, &read) {
        Ok(source) => {
            let hint = hint(&source).map(|hint| format!("{}: {hint}", source.name));
            say(hint.as_slice());
            answered(holds(&image, source.bytes()))
        }
        Err(complaints) => {
            say(&complaints);
            Ok(Status::Complaints)
        }
    }
}

/// The plan in the box; or why there is none, on standard error.
fn write(input: &Input, text: bool) -> Result<Status, String> {
    match read(&image(input)?) {
        Ok(file) if text => {
            let mut lines = vec![format!("# verdict: {}", judge(&file).verdict)];
            lines.extend(text_of(&file));
            put_lines(&lines)?;
            Ok(Status::Done)
        }
        Ok(file) => put(&file).map(|()| Status::Done),
        Err(why) => {
            say(&[format!("{}: {why}", input.name())]);
            Ok(Status::Refused)
        }
    }
}
