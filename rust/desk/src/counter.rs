//! What the counter asks of an image of a box's memory, answered in one line. Blank or not, and whose plan it is, is the word of the proved
//! box; what else is in the memory is read here and put into words.

use crate::difference::difference;
use crate::fingerprint::fingerprint;
use crate::judge::{judge, place};
use crate::memory::{file_in, no_plan};
use crate::plan::Plan;
use crate::running::{running, Side, Wrong};
use crate::words;
use spwd::{Array, Image, Verdict};

/// A line, and whether it is a yes.
#[derive(Debug, PartialEq, Eq)]
pub struct Answer {
    pub line: String,
    pub yes: bool,
}

fn yes(line: String) -> Answer {
    Answer { line, yes: true }
}

fn no(line: String) -> Answer {
    Answer { line, yes: false }
}

/// What is in an image.
enum Found {
    Blank,
    /// Plan memory is that of no plan, but other memory is not that of a clear.
    NoPlan,
    /// The memory holds the plan of this file, which is canonical; and what waits and is live, unless no box leaves that.
    Plan(Vec<u8>, Result<Vec<Side>, Wrong>),
    /// Plan memory is that of no file.
    Strange,
}

fn found(image: &Image) -> Found {
    if image.is_blank() {
        return Found::Blank;
    }
    if no_plan(image) {
        return Found::NoPlan;
    }
    let file = file_in(image);
    if !image.holds(&file, &mut spwd::Plan::new()) {
        return Found::Strange;
    }
    let running = running(image, &Plan::of(&file));
    Found::Plan(file, running)
}

/// Whether the box is blank, and if not what is in it.
pub fn blank(image: &Image) -> Answer {
    let what = match found(image) {
        Found::Blank => return yes("BLANK".to_string()),
        Found::NoPlan => format!("no plan, but {}", nothing_but(image)),
        Found::Strange => format!("{STRANGE}; {}", first_number(image)),
        Found::Plan(file, running) => {
            let counts = place(&judge(&file).verdict).unwrap_or_default();
            let running = match running {
                Ok(sides) => in_words(&sides),
                Err(wrong) => strange_running(image, &wrong),
            };
            format!("plan {}, {counts}; {running}", fingerprint(&file))
        }
    };
    no(format!("NOT BLANK: {what}"))
}

/// Whether the box holds the plan of a file, and if not what is there instead.
pub fn holds(image: &Image, file: &[u8]) -> Answer {
    let judged = judge(file);
    let verdict = judged.verdict;
    if !verdict.is_accepted() {
        return no(refused(&verdict));
    }
    let given = fingerprint(&judged.held);
    let holds = image.holds(file, &mut spwd::Plan::new());
    match found(image) {
        Found::Blank => no("NO PLAN: the box is blank".to_string()),
        Found::NoPlan => no(format!("NO PLAN: {YET}: {}", nothing_but(image))),
        Found::Strange => no(format!("DAMAGED: {STRANGE}; {}", first_number(image))),
        Found::Plan(_, Err(wrong)) => no(format!("DAMAGED: {}", strange_running(image, &wrong))),
        Found::Plan(_, Ok(sides)) if holds => yes(format!("HOLDS {given}{}", since(&sides))),
        Found::Plan(held, Ok(_)) => {
            let first = difference(&Plan::of(&held), &Plan::of(&judged.held));
            let first = first.unwrap_or_else(|| "none was found".to_string());
            let held = fingerprint(&held);
            no(format!(
                "OTHER PLAN: the box has {held}, the file is {given}; first difference: {first}"
            ))
        }
    }
}

/// The plan in the box as its canonical file; or why there is none to be written, in words.
pub fn read(image: &Image) -> Result<Vec<u8>, String> {
    const NO_PLAN: u8 = 20;
    let row = words::refusal(NO_PLAN);
    let refused = format!("refused {}: {}", row.number, row.means);
    match found(image) {
        Found::Blank => Err(format!("{refused}: the box is blank")),
        Found::NoPlan => Err(format!("{refused}: {YET}: {}", nothing_but(image))),
        Found::Strange => Err(format!("{STRANGE}; {}", first_number(image))),
        Found::Plan(_, Err(wrong)) => Err(strange_running(image, &wrong)),
        Found::Plan(file, Ok(_)) => Ok(file),
    }
}

const STRANGE: &str = "no load leaves such memory";
const YET: &str = "and yet the box is not blank";

/// Of memory without a plan that is not blank.
fn nothing_but(image: &Image) -> String {
    let mut run = 0..Array::RUN.count;
    let what = if run.any(|place| image.number(Array::RUN, place) != 0) {
        format!("run memory is not 0: {STRANGE}")
    } else if image.number(Array::LAST, 0) != 0 {
        format!("a time-code was seen: {STRANGE}")
    } else {
        "the watchdog's numbers are not 0".to_string()
    };
    format!("{what}; {}", first_number(image))
}

/// Of memory that is not blank.
fn first_number(image: &Image) -> String {
    let first = image.bytes().iter().position(|&byte| byte != 0);
    let first = first.and_then(|first| {
        let array = Array::ALL.into_iter().find(|array| first < array.end())?;
        let place = (first - array.offset) / array.width;
        Some(number(image, array, place))
    });
    let first = first.unwrap_or_default();
    format!("the first number that is not 0 is {first}")
}

/// A number by its name in c/spwd.h, and where it stands.
fn number(image: &Image, array: Array, place: usize) -> String {
    const FIVE: [&str; 5] = ["last", "seen", "reported", "least", "greatest"];
    let name = match FIVE.get(place) {
        Some(one) if array == Array::WATCHDOG => format!("watchdog.{one}"),
        _ => format!("{}[{place}]", array.name),
    };
    let value = image.number(array, place);
    let offset = array.offset + place * array.width;
    format!("{name} = {value}, at byte {offset}")
}

fn strange_running(image: &Image, wrong: &Wrong) -> String {
    let Wrong { array, place, why } = wrong;
    let number = number(image, *array, *place);
    format!("{STRANGE}: {number}: {why}")
}

/// What waits and what is live.
fn in_words(sides: &[Side]) -> String {
    if sides.is_empty() {
        return "nothing waits, nothing is live".to_string();
    }
    let waiting = sides.iter().filter(|side| side.waiting > 0);
    let waiting = waiting.map(|side| format!("{} of initiator {}", side.waiting, side.initiator));
    let live = sides.iter().filter_map(|side| {
        let live = side.live.as_ref()?;
        let (initiator, number, target) = (side.initiator, live.number, live.target);
        Some(format!(
            "initiator {initiator} number {number} to target {target}"
        ))
    });
    let list = |items: Vec<String>, head: &str, none: &str| match items.len() {
        0 => none.to_string(),
        _ => format!("{head}: {}", items.join(", ")),
    };
    let waiting = list(waiting.collect(), "waiting", "nothing waits");
    let live = list(live.collect(), "live", "nothing is live");
    format!("{waiting}; {live}")
}

/// What has joined since the load, if anything has: a box that is handed out has nothing.
fn since(sides: &[Side]) -> String {
    if sides.is_empty() {
        return String::new();
    }
    format!("; {}", in_words(sides))
}

fn refused(verdict: &Verdict) -> String {
    let means = words::verdict(verdict.number()).means;
    let place = place(verdict).map_or(String::new(), |place| format!(" ({place})"));
    format!("{verdict}: no box holds this file: {means}{place}")
}
