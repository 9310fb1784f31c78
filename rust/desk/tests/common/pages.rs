//! Pages of plans, read.

use super::xml::{page as read, Node};
use super::{plans, root};
use desk::html::head::Given;
use desk::html::page::page;
use desk::source::Source;
use std::fs;

/// A text form, named as it is.
pub fn source(plan: &str) -> Source {
    let text = fs::read(root().join(plan)).unwrap();
    Source::text(plan.to_string(), &text).unwrap_or_else(|complaints| panic!("{complaints:?}"))
}

pub fn of_text(text: &str) -> Source {
    Source::text("a text".to_string(), text.as_bytes()).unwrap()
}

/// The page of a plan.
#[track_caller]
pub fn drawn(source: &Source) -> Node {
    let (text, _) = page(source, &Given::default());
    read(&text).unwrap_or_else(|wrong| panic!("{}: {wrong}", source.name))
}

/// Every plan of the project and of these tests.
pub fn all_plans() -> Vec<String> {
    let mut all = [plans("plans"), plans("rust/desk/tests/plans")].concat();
    all.retain(|plan| !plan.ends_with("/complaints.plan"));
    assert!(all.len() > 60, "{}", all.len());
    all
}

/// The cells of a table's row.
pub fn cells(row: &Node) -> Vec<String> {
    row.named("td").iter().map(|cell| cell.text()).collect()
}

pub fn sorted<T: Ord>(values: impl IntoIterator<Item = T>) -> Vec<T> {
    let mut values: Vec<_> = values.into_iter().collect();
    values.sort();
    values
}

/// The words of a page as lines: headings, paragraphs and items, the rows of tables, and of drawings their names. A verdict is left out.
pub fn said(node: &Node) -> Vec<String> {
    match node.name.as_str() {
        _ if node.get("id") == Some("verdict") => vec!["[verdict]".to_string()],
        "title" | "style" => Vec::new(),
        "h1" | "h2" | "h3" => vec![String::new(), format!("# {}", node.text())],
        "p" | "li" => vec![node.text()],
        "tr" => {
            let cells: Vec<_> = node.inside.iter().map(Node::text).collect();
            vec![cells.join(" | ")]
        }
        "svg" => {
            let label = node.get("aria-label");
            label
                .map(|label| format!("[{label}]"))
                .into_iter()
                .collect()
        }
        _ => node.inside.iter().flat_map(said).collect(),
    }
}
