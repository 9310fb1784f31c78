//! A plan as a page to tape to the box: what it is, its network, its table, its paths, their times and their turns. Of a refused plan the same,
//! as far as it can be read, with what is at fault marked wherever it is drawn.

use crate::fields::fields;
use crate::fingerprint::fingerprint;
use crate::html::document::with_foot;
use crate::html::element::{words, Element};
use crate::html::head::{head, Given};
use crate::html::marks::Marks;
use crate::html::network::network;
use crate::html::paths::paths;
use crate::html::table::table;
use crate::html::times::times;
use crate::html::turns::turns;
use crate::judge::{judge, Judged};
use crate::plan::Plan;
use crate::source::Source;
use crate::taken::hint;
use spwd::{Fault, Verdict};

/// The text of a page, and whether the plan was accepted.
pub fn page(source: &Source, given: &Given) -> (String, bool) {
    let judged = judge(source.bytes());
    let (plan, left_out) = readable(source, &judged);
    let names = &source.compiled.names;
    let marks = Marks::of(&judged.verdict, &plan);
    let mut inside = vec![head(source, &judged, &plan, &marks, given)];
    inside.extend(left_out.map(|said| words("p", said)));
    inside.push(network(&plan, names, &marks));
    inside.push(table(&plan, names, &marks));
    inside.push(paths(&plan, &marks));
    inside.extend(times(&plan, &marks));
    inside.extend(asked(&plan, &judged));
    let text = with_foot(given.title(source), &foot(&judged), inside);
    (text, judged.verdict.is_accepted())
}

/// Which plan a sheet of paper belongs to.
fn foot(judged: &Judged) -> String {
    match judged.verdict {
        Verdict::Accepted(_) => format!("fingerprint {}", fingerprint(&judged.held)),
        Verdict::Refused(_) => judged.verdict.to_string(),
    }
}

/// Turns are for the box to say, and it holds a plan that it accepted.
fn asked(plan: &Plan, judged: &Judged) -> Option<Element> {
    let accepted = judged.verdict.is_accepted();
    accepted.then(|| turns(plan, &judged.desk))
}

/// The plan as the box holds it, or what can be read of a refused one, and what is left out. Behind a field that is cut off, of an unknown
/// kind or of a wrong length it is not known where the next one begins.
fn readable<'a>(source: &'a Source, judged: &'a Judged) -> (Plan<'a>, Option<&'static str>) {
    match judged.verdict {
        Verdict::Accepted(_) => (Plan::of(&judged.held), None),
        _ if hint(source).is_some() => (
            Plan::default(),
            Some("Nothing is drawn of what looks like no plan."),
        ),
        Verdict::Refused(Fault::File {
            number: Verdict::FILE_TOO_LONG,
            ..
        }) => (
            Plan::default(),
            Some("Nothing is drawn of a file that is too long."),
        ),
        Verdict::Refused(Fault::File {
            number: Verdict::CUT_OFF | Verdict::UNKNOWN_TAG | Verdict::FIELD_LENGTH,
            place,
        }) => {
            let mut before = fields(source.bytes());
            before.retain(|field| field.offset < usize::from(place));
            (
                Plan::given(&before),
                Some("Drawn is what stands before the fault."),
            )
        }
        Verdict::Refused(_) => (Plan::of(source.bytes()), None),
    }
}
