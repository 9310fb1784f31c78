//! The marks of a chart: each is told by its shape, so that it can be read in black and white.

use crate::html::element::{element, words, Element};
use crate::html::svg::{circle, drawn, line, rect, short, text, width};
use spwd::{ERROR, SUCCESS};

pub const RED: &str = "#b00000";

/// Words of a mark, red.
pub fn red(x: f64, y: f64, size: f64, what: impl ToString) -> Element {
    let style = format!("fill:{RED};font-size:{size}px;font-weight:bold");
    text(x, y, what).with("style", style)
}

/// Words in letters of a size.
pub fn small(x: f64, y: f64, size: f64, what: impl ToString) -> Element {
    let style = format!("font-size:{size}px");
    text(x, y, what).with("style", style)
}

/// With words that are shown where a pointer rests.
pub fn titled(mark: Element, title: impl ToString) -> Element {
    element("g").add(words("title", title)).add(mark)
}

/// How far apart the requests of a line stand.
pub const PITCH: f64 = 4.8;

/// A request that waits: a square, black when it joins.
pub fn waiting(x: f64, y: f64, joins: bool) -> Element {
    let fill = if joins { "#000" } else { "#c4c4c4" };
    rect(x, y, 3.8, 3.8)
        .with("fill", fill)
        .with("stroke", "#000")
        .with("stroke-width", 0.5)
}

/// What was refused: its number in a frame.
pub fn refused(x: f64, y: f64, number: &str) -> Element {
    let wide = width(number, 7.0) + 4.0;
    let frame = rect(x - wide / 2.0, y - 4.5, wide, 9.0)
        .with("rx", 2)
        .with("fill", "#fff")
        .with("stroke", RED)
        .with("stroke-width", 1.2);
    element("g").add(frame).add(red(x, y, 7.0, number))
}

/// A reply by the class of its status: a dot, a cross in a square, an empty diamond.
pub fn reply(x: f64, y: f64, class: u8) -> Element {
    let at = |dx: f64, dy: f64| format!("{} {}", short(x + dx), short(y + dy));
    match class {
        SUCCESS => circle(x, y, 3.4).with("fill", "#000"),
        ERROR => {
            let square = format!("M{}h7v7h-7zl7 7m0-7l-7 7", at(-3.5, -3.5));
            drawn(square)
                .with("fill", "#fff")
                .with("stroke", RED)
                .with("stroke-width", 1.4)
        }
        _ => drawn(format!("M{}l4.5 4.5l-4.5 4.5l-4.5-4.5z", at(0.0, -4.5)))
            .with("fill", "#fff")
            .with("stroke", "#000")
            .with("stroke-width", 1.4),
    }
}

/// Where a transaction was given up: a heavy line across its bar.
pub fn given_up(x: f64, top: f64, bottom: f64) -> Element {
    line((x, top), (x, bottom))
        .with("stroke", RED)
        .with("stroke-width", 3)
}

/// A clock reading that reports lateness: a flag.
pub fn flag(x: f64, top: f64) -> Element {
    let path = format!("M{} {}v-11h8l-2 3l2 3h-8", short(x), short(top + 12.0));
    drawn(path)
        .with("fill", "#fff")
        .with("stroke", RED)
        .with("stroke-width", 1.2)
}
