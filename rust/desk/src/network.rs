//! An accepted plan's network: devices, links, paths and replies, intervals, slot times.

use crate::layout::{wrapped, WIDTH};
use crate::names::Names;
use crate::plan::Plan;
use crate::sheet::in_words;

pub fn network(plan: &Plan, names: &Names) -> Vec<String> {
    let mut lines = devices(plan);
    lines.extend(named(names));
    lines.extend(links(plan));
    lines.extend(paths(plan));
    if let Some(timing) = plan.timing {
        let (least, greatest) = (timing.least, timing.greatest);
        let early = if least == 0 { " (never early)" } else { "" };
        lines.push(format!(
            "time-code interval: least {least}{early}, greatest {greatest}"
        ));
    }
    lines.extend(plan.times.iter().flat_map(in_words));
    lines
}

fn devices(plan: &Plan) -> Vec<String> {
    let of_kind = |kind| -> Vec<String> {
        let devices = plan.devices.iter().filter(|device| device.kind == kind);
        let numbers = devices.map(|device| device.number.to_string());
        numbers.collect()
    };
    let mut lines = vec!["devices".to_string()];
    for (kind, head) in [(0, "  nodes:  "), (1, "  routers:")] {
        let numbers = of_kind(kind);
        if numbers.is_empty() {
            lines.push(format!("{head} none"));
        } else {
            lines.extend(wrapped(head, &numbers));
        }
    }
    lines
}

fn named(names: &Names) -> Vec<String> {
    let names = names.iter();
    let mut lines: Vec<_> = names
        .map(|(device, name)| format!("  {device}: {name}"))
        .collect();
    if !lines.is_empty() {
        lines.insert(0, "names".to_string());
    }
    lines
}

fn links(plan: &Plan) -> Vec<String> {
    const COLUMN: usize = 13;
    let mut lines = vec!["links".to_string()];
    for row in plan.links.chunks((WIDTH - 2) / COLUMN) {
        let mut line = " ".to_string();
        for link in row {
            let ends = format!("{}: {}-{}", link.number, link.ends[0], link.ends[1]);
            line += &format!(" {ends:<0$}", COLUMN - 1);
        }
        lines.push(line.trim_end().to_string());
    }
    lines
}

fn paths(plan: &Plan) -> Vec<String> {
    let mut lines = vec!["paths".to_string()];
    for path in &plan.paths {
        let (initiator, target) = (path.initiator, path.target);
        let walk = plan.drawn(&path.way(), None);
        lines.push(format!("  {initiator} to {target}: {walk}"));
        lines.extend(plan.reply(initiator, target).map(|reply| {
            let walk = plan.drawn(&reply.way(), None);
            format!("    reply: {walk}")
        }));
    }
    if (1..plan.paths.len()).contains(&plan.replies.len()) {
        lines
            .push("  where no reply is drawn, it goes back over the links of the path".to_string());
    }
    lines
}
