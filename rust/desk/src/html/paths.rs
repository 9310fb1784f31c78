//! The paths as walks, from device over link to device; and the ways home of replies that have their own.

use crate::fields::{Path, Reply};
use crate::html::document::{folded, section};
use crate::html::element::{element, table_head, words, Element};
use crate::html::marks::Marks;
use crate::html::once::Once;
use crate::plan::Plan;
use crate::ways::Way;

pub fn paths(plan: &Plan, marks: &Marks) -> Element {
    let section = section("paths", "Paths");
    if plan.paths.is_empty() && plan.replies.is_empty() {
        return section.add(words("p", "No paths."));
    }
    let head = table_head(&["#from", "#to", "the command", "the reply"]);
    let body = element("tbody").add_all(rows(plan, marks));
    let table = element("table").class("wide").add(head).add(body);
    let narrow =
        plan.replies.is_empty() && plan.paths.iter().all(|path| path.links.len() <= NARROW);
    section
        .add(folded(table, plan.paths.len(), narrow))
        .add(words("p", LEGEND).class("small"))
}

/// Links of a walk that has room in half the page.
const NARROW: usize = 3;

const LEGEND: &str = "1 -0- 10 is: from device 1 over link 0 to device 10. The reply goes back over the same links where it has no way of its own.";

/// A row for each path, with its reply if that has a way of its own; then replies that have no path.
fn rows(plan: &Plan, marks: &Marks) -> Vec<Element> {
    let mut once = Once::default();
    let mut rows = Vec::new();
    for path in &plan.paths {
        let pair = format!("{}-{}", path.initiator, path.target);
        let id = once.name(pair.clone());
        let reply = plan.reply(path.initiator, path.target);
        let reply = reply.filter(|_| id == pair);
        rows.push(row(plan, marks, path, reply, &id));
    }
    let own = |reply: &&Reply| {
        let (initiator, target) = (reply.initiator, reply.target);
        let first = plan.reply(initiator, target).map(|first| first.offset);
        first == Some(reply.offset) && plan.path(initiator, target).is_some()
    };
    let mut once = Once::default();
    for reply in plan.replies.iter().filter(|reply| !own(reply)) {
        let id = once.name(format!("{}-{}", reply.initiator, reply.target));
        rows.push(alone(plan, marks, reply, &id));
    }
    rows
}

fn row(plan: &Plan, marks: &Marks, path: &Path, reply: Option<Reply>, id: &str) -> Element {
    let command = walk(plan, marks, &path.way(), path.offset);
    let home = match &reply {
        Some(reply) => walk(plan, marks, &reply.way(), reply.offset).with("data-reply", id),
        None => words("td", "the same links"),
    };
    let own = [Some(path.offset), reply.map(|reply| reply.offset)];
    let fault = own
        .iter()
        .flatten()
        .any(|offset| marks.ways.contains(offset));
    let row = element("tr")
        .with("id", format!("path-{id}"))
        .with("data-path", id)
        .add(words("td", path.initiator).class("number"))
        .add(words("td", path.target).class("number"))
        .add(command)
        .add(home);
    if fault {
        row.class("fault").with("data-fault", format!("path-{id}"))
    } else {
        row
    }
}

fn alone(plan: &Plan, marks: &Marks, reply: &Reply, id: &str) -> Element {
    let row = element("tr")
        .with("data-path", "none")
        .add(words("td", reply.initiator).class("number"))
        .add(words("td", reply.target).class("number"))
        .add(words("td", "no path of its own"))
        .add(
            walk(plan, marks, &reply.way(), reply.offset).with("data-reply", format!("{id}-alone")),
        );
    if marks.ways.contains(&reply.offset) {
        row.class("fault").with("data-fault", format!("reply-{id}"))
    } else {
        row
    }
}

/// A way; if it is marked, with what is wrong, and the link of a clash between double lines.
fn walk(plan: &Plan, marks: &Marks, way: &Way, offset: usize) -> Element {
    let shown = marks.links.iter().find(|link| way.links.contains(link));
    let marked = marks.ways.contains(&offset);
    let walk = plan.drawn(way, shown.copied().filter(|_| marked));
    let cell = element("td").class("mono").text(walk);
    if marked {
        let words = words("div", format!("! {}", marks.words)).class("fault-words");
        cell.add(words)
    } else {
        cell
    }
}
