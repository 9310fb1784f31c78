//! Elements of a page in the form that HTML and XML share: each is closed, each attribute quoted and there once, all text escaped.

use crate::invisible::is_invisible;
use std::fmt::{self, Display, Formatter};

/// Elements that have no end and nothing inside.
const VOID: [&str; 4] = ["br", "col", "hr", "meta"];

#[derive(Clone, Debug)]
pub struct Element {
    name: &'static str,
    attributes: Vec<(&'static str, String)>,
    inside: Vec<Part>,
}

#[derive(Clone, Debug)]
enum Part {
    Text(String),
    Style(String),
    Element(Element),
}

pub fn element(name: &'static str) -> Element {
    Element {
        name,
        attributes: Vec::new(),
        inside: Vec::new(),
    }
}

impl Element {
    /// With an attribute; one that is there already gets the new value.
    pub fn with(mut self, name: &'static str, value: impl ToString) -> Self {
        let value = value.to_string();
        match self.attributes.iter_mut().find(|(own, _)| *own == name) {
            Some((_, own)) => *own = value,
            None => self.attributes.push((name, value)),
        }
        self
    }

    pub fn class(self, value: impl ToString) -> Self {
        self.with("class", value)
    }

    /// With words behind what is inside.
    pub fn text(mut self, words: impl ToString) -> Self {
        self.inside.push(Part::Text(words.to_string()));
        self
    }

    /// With an element behind what is inside.
    #[allow(clippy::should_implement_trait)]
    pub fn add(mut self, element: Element) -> Self {
        self.inside.push(Part::Element(element));
        self
    }

    pub fn add_all(mut self, elements: impl IntoIterator<Item = Element>) -> Self {
        self.inside.extend(elements.into_iter().map(Part::Element));
        self
    }

    /// With the words of a style sheet. HTML takes them as they are and XML does not, so those that tell are left out.
    pub fn style(mut self, sheet: &str) -> Self {
        self.inside.push(Part::Style(sheet.replace(['<', '&'], "")));
        self
    }
}

/// An element with nothing but words inside.
pub fn words(name: &'static str, words: impl ToString) -> Element {
    element(name).text(words)
}

/// The head of a table: a column that begins with `#` has numbers, one that begins with `*` takes the room that is left.
pub fn table_head(names: &[&str]) -> Element {
    let cell = |name: &&str| {
        if let Some(name) = name.strip_prefix('#') {
            words("th", name).class("number")
        } else if let Some(name) = name.strip_prefix('*') {
            words("th", name).class("rest")
        } else {
            words("th", name)
        }
    };
    let cells = names.iter().map(cell);
    element("thead").add(element("tr").add_all(cells))
}

impl Display for Element {
    fn fmt(&self, out: &mut Formatter<'_>) -> fmt::Result {
        write!(out, "<{}", self.name)?;
        for (name, value) in &self.attributes {
            write!(out, " {name}=\"{}\"", escaped(value))?;
        }
        if VOID.contains(&self.name) {
            return out.write_str("/>");
        }
        out.write_str(">")?;
        for part in &self.inside {
            match part {
                Part::Text(words) => out.write_str(&escaped(words))?,
                Part::Style(sheet) => out.write_str(sheet)?,
                Part::Element(element) => element.fmt(out)?,
            }
        }
        write!(out, "</{}>", self.name)
    }
}

/// Words as they stand in text and between quotes. A character that is no part of XML, or that nobody would see, is shown as its code.
pub fn escaped(words: &str) -> String {
    let mut escaped = String::new();
    for character in words.chars() {
        match character {
            '<' => escaped += "&lt;",
            '>' => escaped += "&gt;",
            '&' => escaped += "&amp;",
            '"' => escaped += "&quot;",
            '\'' => escaped += "&#39;",
            '\n' => escaped.push('\n'),
            _ if is_invisible(character) => escaped.extend(character.escape_unicode()),
            _ => escaped.push(character),
        }
    }
    escaped
}
