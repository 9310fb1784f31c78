//! What the marks of a chart say.

use crate::history::shapes::{flag, given_up, red, refused, reply, small, waiting};
use crate::html::element::{words, Element};
use crate::html::svg::{group, rect, svg, PAPER};
use spwd::{ERROR, RESERVED, SUCCESS};

/// A mark at a point.
type Mark = fn(f64, f64) -> Element;

/// Marks and words side by side, in three columns.
pub fn legend() -> Vec<Element> {
    let said: [(Mark, &str); 12] = [
        (started, "a start: transaction number → target"),
        (bar, "under way, in the initiator's colour"),
        (success, "a reply ends it: success"),
        (error, "a reply: error, with its status"),
        (reserved, "a reply: reserved status"),
        (late, "given up: no reply within the span"),
        (request, "a request joins its line (up to 8)"),
        (waits, "a request that waits in its line"),
        (no, "refused, with the number of the card"),
        (not_next, "a time-code that is not the next one"),
        (interval, "a time-code that came early or late"),
        (reading, "a clock reading reports lateness"),
    ];
    let wide = PAPER / 3.0;
    let mut drawing = svg(PAPER, 4.0 * 16.0 + 2.0, "what the marks say");
    for (place, (mark, what)) in said.into_iter().enumerate() {
        let (x, y) = (wide * (place / 4) as f64, 16.0 * (place % 4) as f64 + 9.0);
        drawing = drawing
            .add(mark(x, y))
            .add(small(x + 46.0, y, 9.0, what).class("from"));
    }
    let how = "A column is a slot, from its time-code to the next; replies and refusals stand in it in their order. \
        Time-codes are counted from each load.";
    vec![drawing, words("p", how).class("small")]
}

fn started(x: f64, y: f64) -> Element {
    small(x + 6.0, y, 8.0, "0→20").class("from")
}

fn bar(x: f64, y: f64) -> Element {
    rect(x + 6.0, y - 4.5, 26.0, 9.0).class("i0")
}

fn success(x: f64, y: f64) -> Element {
    reply(x + 18.0, y, SUCCESS)
}

fn error(x: f64, y: f64) -> Element {
    reply(x + 18.0, y, ERROR)
}

fn reserved(x: f64, y: f64) -> Element {
    reply(x + 18.0, y, RESERVED)
}

fn late(x: f64, y: f64) -> Element {
    let mark = given_up(x + 29.0, y - 6.0, y + 6.0);
    let late = red(x + 25.0, y, 8.0, "late").class("to");
    group("").add(late).add(mark)
}

fn request(x: f64, y: f64) -> Element {
    waiting(x + 16.0, y - 2.0, true)
}

fn waits(x: f64, y: f64) -> Element {
    waiting(x + 16.0, y - 2.0, false)
}

fn no(x: f64, y: f64) -> Element {
    refused(x + 18.0, y, "25")
}

fn not_next(x: f64, y: f64) -> Element {
    red(x + 2.0, y, 8.0, "not next").class("from")
}

fn interval(x: f64, y: f64) -> Element {
    red(x + 2.0, y, 8.0, "early, late").class("from")
}

fn reading(x: f64, y: f64) -> Element {
    flag(x + 14.0, y - 6.0)
}
