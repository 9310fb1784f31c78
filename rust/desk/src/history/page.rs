//! The page of a run: what was played, what the marks say, and a section for each load and clear.

use crate::happening::Wrong;
use crate::history::chart::{Chart, Cut, Said, Section};
use crate::history::legend::legend;
use crate::history::rows::rows;
use crate::history::words::counted;
use crate::html::document::document;
use crate::html::element::{element, words, Element};
use crate::html::head::Given;

/// The text of the page of a script.
pub fn page(script: &str, chart: &Chart, given: &Given) -> String {
    let title = given.title.as_deref().unwrap_or(script);
    let mut inside = vec![head(title, script, chart, given)];
    inside.extend(wrong(chart));
    let sections = chart.sections.iter().enumerate();
    inside.extend(sections.map(|(place, section)| drawn(place + 1, section)));
    if chart.more > 0 {
        let more = format!(
            "And {} more loads and clears, which are not shown.",
            chart.more
        );
        inside.push(words("p", more).class("left-out"));
    }
    document(title, inside)
}

fn head(title: &str, script: &str, chart: &Chart, given: &Given) -> Element {
    let mut facts = vec![fact("script", script)];
    facts.extend(given.date.iter().map(|date| fact("date", date)));
    if chart.sections.is_empty() {
        facts.push(fact(
            "played",
            "nothing: the script has no command that is drawn",
        ));
    }
    let facts = element("tbody").add_all(facts);
    element("header")
        .add(words("h1", title))
        .add(element("table").class("facts").add(facts))
        .add_all(legend())
}

fn fact(name: &'static str, value: impl ToString) -> Element {
    element("tr")
        .add(words("th", name))
        .add(words("td", value).with("data-fact", name))
}

/// The lines that are no command, with what would be right.
fn wrong(chart: &Chart) -> Option<Element> {
    if chart.wrong.is_empty() {
        return None;
    }
    let mut section = element("section")
        .with("id", "wrong")
        .add(words("h2", "Lines that are no command"))
        .add_all(chart.wrong.iter().map(wrong_line));
    if chart.more_wrong > 0 {
        let more = format!("And {} more.", chart.more_wrong);
        section = section.add(words("p", more).class("left-out"));
    }
    Some(section)
}

fn wrong_line(wrong: &Wrong) -> Element {
    let Wrong {
        line,
        what,
        text,
        why,
    } = wrong;
    let why: String = why.iter().map(|why| format!("\n    {why}")).collect();
    words("pre", format!("line {line}: {what}: {text}{why}")).with("data-wrong", line)
}

fn drawn(place: usize, section: &Section) -> Element {
    let mut drawn = element("section")
        .with("data-section", place)
        .add(words("h2", heading(&section.cut)));
    let facts = facts(section);
    if !facts.is_empty() {
        let facts = element("tbody").add_all(facts);
        drawn = drawn.add(element("table").class("facts").add(facts));
    }
    drawn = drawn.add_all(rows(section));
    drawn.add_all(left_out(section)).add_all(said(section))
}

fn heading(cut: &Cut) -> String {
    match cut {
        Cut::Begin => "Before the first load".to_string(),
        Cut::Clear => "Clear".to_string(),
        Cut::Load {
            number, accepted, ..
        } => {
            let refused = if *accepted { "" } else { ", refused" };
            format!("Load {number}{refused}")
        }
    }
}

fn facts(section: &Section) -> Vec<Element> {
    let mut facts = Vec::new();
    match &section.cut {
        Cut::Load {
            verdict,
            fingerprint,
            file,
            ..
        } => {
            facts.push(fact("verdict", verdict));
            facts.extend(fingerprint.iter().map(|print| fact("fingerprint", print)));
            facts.extend(file.iter().map(|file| fact("file", file)));
        }
        Cut::Begin | Cut::Clear => facts.push(fact("plan", "there is no plan in the box")),
    }
    let counted = counted(&section.counts);
    if !counted.is_empty() {
        facts.push(fact("played", counted.join(", ")));
    }
    facts
}

fn left_out(section: &Section) -> Option<Element> {
    let counted = counted(&section.left_out);
    if counted.is_empty() {
        return None;
    }
    let words_of = format!("Left out from here on, not drawn: {}.", counted.join(", "));
    Some(words("p", words_of).class("left-out"))
}

/// What asks for something, with the time-code that it came with or after.
fn said(section: &Section) -> Option<Element> {
    if section.said.is_empty() {
        return None;
    }
    let head = ["time-code", "slot", "what asks for something"];
    let head = head.map(|name| words("th", name).with("style", "white-space:nowrap"));
    let head = element("tr").add_all(head);
    let rows = element("tbody").add_all(section.said.iter().map(line));
    let table = element("table")
        .class("wide small")
        .add(element("thead").add(head))
        .add(rows);
    let more = format!("And {} more lines.", section.unsaid);
    let more = words("p", more).class("left-out");
    let more = (section.unsaid > 0).then_some(more);
    Some(element("div").add(table).add_all(more))
}

fn line(said: &Said) -> Element {
    let (number, slot) = match said.time_code {
        Some((number, slot)) => (number.to_string(), slot.to_string()),
        None => ("before".to_string(), String::new()),
    };
    element("tr")
        .add(words("td", number).class("number"))
        .add(words("td", slot).class("number"))
        .add(words("td", &said.words).with("data-said", ""))
}
