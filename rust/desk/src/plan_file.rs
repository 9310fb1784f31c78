//! A plan that a script names by its file: the plan file, or the text that it is compiled from.

use crate::kind::{kind, Kind};
use crate::layout::printable;
use crate::source::Source;
use crate::streams::Input;
use crate::taken::recognised;

/// The most bytes that are read; a plan has far fewer.
const MOST: u64 = 16 << 20;

/// What may stand behind `load` and `holds`.
const RIGHT: &str = "right is a plan file in lowercase hex, - for the empty one, or the name of a plan file or of its text";

/// The plan of a file; or what is wrong, in lines.
pub fn plan_file(file: &str) -> Result<Source, Vec<String>> {
    let input = Input::of(Some(file.into()));
    let read = input
        .read(MOST)
        .map_err(|failed| vec![printable(failed.as_bytes()), RIGHT.to_string()])?;
    if let Some(other) = other(&input, &read) {
        let name = printable(file.as_bytes());
        return Err(vec![format!("{name}: {other}"), RIGHT.to_string()]);
    }
    recognised(&input, &read).map_err(|wrong| {
        let wrong = wrong.iter();
        wrong.map(|line| printable(line.as_bytes())).collect()
    })
}

/// What a file is that is neither, if that can be known. A damaged plan file cannot: it is for the box to refuse.
fn other(input: &Input, read: &[u8]) -> Option<String> {
    match kind(read) {
        Kind::Plan | Kind::Text | Kind::Empty | Kind::Other => None,
        _ if input.is_plan() => None,
        other => other.not_a_plan_file(),
    }
}
