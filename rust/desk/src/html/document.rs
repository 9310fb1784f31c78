//! A whole page: its head with the style, the patterns of the initiators, and what is inside.

use crate::html::element::{element, words, Element};
use crate::html::style::{patterns, FOOT, SHEET};

/// The text of a page, to the last newline.
pub fn document(title: &str, inside: impl IntoIterator<Item = Element>) -> String {
    with_foot(title, "", inside)
}

/// The same, with words at the foot of every sheet of paper: letters, digits and spaces.
pub fn with_foot(title: &str, foot: &str, inside: impl IntoIterator<Item = Element>) -> String {
    let plain = |letter: &char| letter.is_ascii_alphanumeric() || *letter == ' ';
    let foot: String = foot.chars().filter(plain).collect();
    let foot = format!("@page {{ @bottom-left {{ content: '{foot}'; {FOOT} }} }}\n");
    let head = element("head")
        .add(element("meta").with("charset", "utf-8"))
        .add(
            element("meta")
                .with("name", "viewport")
                .with("content", "width=device-width"),
        )
        .add(words("title", title))
        .add(element("style").style(SHEET).style(&foot));
    let body = element("body").add(patterns()).add_all(inside);
    let html = element("html").with("lang", "en").add(head).add(body);
    format!("<!DOCTYPE html>\n{html}\n")
}

/// A part of a page below a heading; its id is that of the part.
pub fn section(id: &'static str, heading: impl ToString) -> Element {
    element("section").with("id", id).add(words("h2", heading))
}

/// Rows from which on a table stands in two columns.
const LONG: usize = 24;

/// A table of so many rows, in two columns if it is long and no row is wide.
pub fn folded(table: Element, rows: usize, narrow: bool) -> Element {
    if rows >= LONG && narrow {
        element("div").class("two").add(table)
    } else {
        table
    }
}
