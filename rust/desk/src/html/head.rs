//! The head of a page: its title, which plan it is, and the verdict; of a refused plan why, with the line at fault.

use crate::arguments::{own, Options};
use crate::fields::Timing;
use crate::fingerprint::fingerprint;
use crate::further::{further, sifted};
use crate::html::element::{element, words, Element};
use crate::html::marks::Marks;
use crate::judge::{in_words, place, Judged};
use crate::page::behind;
use crate::plan::Plan;
use crate::source::Source;
use crate::taken::hint;
use spwd::{Fault, Verdict};
use std::ffi::OsString;

/// What the caller says of the page.
#[derive(Clone, Debug, Default, PartialEq, Eq)]
pub struct Given {
    pub title: Option<String>,
    pub date: Option<String>,
}

impl Given {
    /// The words of `--title` and `--date`, if `--page` stands among the options; an option that asks for something else stands not beside it.
    pub fn among(options: &Options, other: &str) -> Result<Option<Self>, String> {
        let word = |name| -> Result<Option<String>, String> {
            let words = own(options, name)?.and_then(<[OsString]>::first);
            Ok(words.map(|word| word.to_string_lossy().into_owned()))
        };
        let (title, date) = (word("--title")?, word("--date")?);
        match (own(options, "--page")?, own(options, other)?) {
            (Some(_), Some(_)) => Err(format!("--page and {other} exclude each other")),
            (Some(_), None) => Ok(Some(Self { title, date })),
            _ if title.is_some() || date.is_some() => {
                Err("--title and --date go with --page".to_string())
            }
            _ => Ok(None),
        }
    }

    /// The title, or else the file's name.
    pub fn title<'a>(&'a self, source: &'a Source) -> &'a str {
        self.title.as_deref().unwrap_or(&source.name)
    }
}

pub fn head(
    source: &Source,
    judged: &Judged,
    plan: &Plan,
    marks: &Marks,
    given: &Given,
) -> Element {
    let mut facts = vec![fact("file", "file", &source.name)];
    if judged.verdict.is_accepted() {
        let print = fact("fingerprint", "fingerprint", fingerprint(&judged.held));
        facts.push(print.class("print"));
        facts.push(fact("verdict", "verdict", judged.verdict));
    }
    facts.push(fact("counts", "counts", counts(judged, plan)));
    facts.extend(given.date.as_ref().map(|date| fact("date", "date", date)));
    facts.extend(plan.timing.map(|timing| intervals(&timing, marks)));
    let verdict = match &judged.verdict {
        Verdict::Accepted(_) => None,
        Verdict::Refused(fault) => Some(refused(source, &judged.verdict, fault)),
    };
    element("header")
        .add(words("h1", given.title(source)))
        .add_all(verdict)
        .add(
            element("table")
                .class("facts")
                .add(element("tbody").add_all(facts)),
        )
}

fn fact(id: &'static str, name: &str, value: impl ToString) -> Element {
    element("tr")
        .add(words("th", name))
        .add(words("td", value).with("id", id))
}

fn intervals(timing: &Timing, marks: &Marks) -> Element {
    let (least, greatest) = (timing.least, timing.greatest);
    let early = if least == 0 { " (never early)" } else { "" };
    let interval = format!("least {least}{early}, greatest {greatest}");
    let row = fact("intervals", "time-code interval", interval);
    marks.field(row, timing.offset, "intervals")
}

/// The box's own counts; of a refused plan, what is drawn.
fn counts(judged: &Judged, plan: &Plan) -> String {
    if let (true, Some(counts)) = (judged.verdict.is_accepted(), place(&judged.verdict)) {
        return counts;
    }
    format!(
        "none: the plan is refused. Drawn here: devices {}, links {}, paths {}, entries {}",
        plan.devices.len(),
        plan.links.len(),
        plan.paths.len(),
        plan.entries.len()
    )
}

/// The verdict in words, what it is about, and what else is at fault.
fn refused(source: &Source, verdict: &Verdict, fault: &Fault) -> Element {
    let mut said: Vec<_> = in_words(verdict).into_iter().skip(1).collect();
    said.extend(hint(source).map(|hint| format!("    {hint}")));
    let inside = element("div")
        .class("verdict refused")
        .with("id", "verdict")
        .with("data-verdict", verdict.number())
        .add(words("strong", verdict))
        .add(words("pre", said.join("\n")));
    let behind = behind(source, fault);
    let about = (!behind.is_empty()).then(|| about(source, fault, &behind));
    let further = further(source, &sifted(source), fault);
    let others = words("pre", further.join("\n")).with("id", "further");
    let others = (!further.is_empty()).then_some(others);
    inside.add_all(about).add_all(others)
}

/// Lines, with the one of the field at fault marked.
fn about(source: &Source, fault: &Fault, lines: &[String]) -> Element {
    let offset = match *fault {
        Fault::File { place, .. } => Some(usize::from(place)),
        _ => None,
    };
    let at_fault = offset.and_then(|offset| source.line_at(offset));
    let field = offset.map(|offset| format!("the field at offset {offset}:"));
    let is_own = |line: &str| match (&at_fault, &field) {
        (Some(at_fault), _) => line.trim_start() == at_fault,
        (None, Some(field)) => line.starts_with(field),
        (None, None) => false,
    };
    let mut drawn = element("pre").with("id", "about");
    for line in lines {
        drawn = if is_own(line) {
            let mark = words("mark", line)
                .class("fault")
                .with("data-fault", "line");
            drawn.add(mark).text("\n")
        } else {
            drawn.text(format!("{line}\n"))
        };
    }
    drawn
}
