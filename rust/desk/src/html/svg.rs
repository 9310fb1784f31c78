//! Drawings inside a page. A unit is a quarter of a millimetre where a drawing is as wide as the paper between its margins.

use crate::html::element::{element, Element};

/// Units from margin to margin.
pub const PAPER: f64 = 744.0;
/// Units from top to bottom.
pub const PAPER_HIGH: f64 = 1_080.0;

/// A drawing of so many units. It is never shown wider than the paper, and never larger than its units are.
pub fn svg(width: f64, height: f64, label: &str) -> Element {
    let share = (100.0 * width / PAPER).min(100.0);
    element("svg")
        .with("viewBox", format!("0 0 {} {}", short(width), short(height)))
        .with("style", format!("width:{}%", short(share)))
        .with("role", "img")
        .with("aria-label", label)
}

pub fn group(class: &str) -> Element {
    element("g").class(class)
}

pub fn rect(x: f64, y: f64, width: f64, height: f64) -> Element {
    element("rect")
        .with("x", short(x))
        .with("y", short(y))
        .with("width", short(width))
        .with("height", short(height))
}

pub fn circle(x: f64, y: f64, radius: f64) -> Element {
    element("circle")
        .with("cx", short(x))
        .with("cy", short(y))
        .with("r", short(radius))
}

pub fn line(from: (f64, f64), to: (f64, f64)) -> Element {
    element("line")
        .with("x1", short(from.0))
        .with("y1", short(from.1))
        .with("x2", short(to.0))
        .with("y2", short(to.1))
}

/// A curve or an area, as the letters and numbers of a path.
pub fn drawn(path: impl ToString) -> Element {
    element("path").with("d", path)
}

/// Words on a line through a point, in the middle of it unless a class says otherwise: `from` begins there, `to` ends there.
pub fn text(x: f64, y: f64, words: impl ToString) -> Element {
    element("text")
        .with("x", short(x))
        .with("y", short(y))
        .text(words)
}

/// A number with at most one digit behind the point.
pub fn short(number: f64) -> String {
    let text = format!("{number:.1}");
    let text = text.strip_suffix(".0").unwrap_or(&text);
    if text == "-0" { "0" } else { text }.to_string()
}

/// About how wide words are in letters of this size; rather too much than too little.
pub fn width(words: &str, size: f64) -> f64 {
    let each = words.chars().map(|character| match character {
        'i' | 'j' | 'l' | 'I' | '.' | ',' | ':' | ';' | '\'' | '|' | '!' => 0.3,
        ' ' | 'f' | 'r' | 't' | '-' | '(' | ')' | '[' | ']' | '/' => 0.36,
        'm' | 'w' | 'M' | 'W' | '%' | '@' => 0.95,
        'A'..='Z' => 0.72,
        ' '..='~' => 0.57,
        _ => 1.0,
    });
    size * each.sum::<f64>()
}

/// As many characters of words as have room, with "…" where some are left out.
pub fn fitted(words: &str, size: f64, room: f64) -> String {
    if width(words, size) <= room {
        return words.to_string();
    }
    let mut fitted = String::new();
    for character in words.chars() {
        let longer = format!("{fitted}{character}");
        if width(&longer, size) + size > room {
            break;
        }
        fitted = longer;
    }
    format!("{}…", fitted.trim_end())
}
