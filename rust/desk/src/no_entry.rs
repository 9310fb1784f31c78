//! Verdict 15: a plan with no entry. What it has, who is left without an entry, and where entries stand.

use crate::layout::wrapped;
use crate::plan::Plan;
use crate::source::Source;

pub fn no_entry(source: &Source, plan: &Plan) -> Vec<String> {
    let (devices, links, paths) = (plan.devices.len(), plan.links.len(), plan.paths.len());
    let mut lines = vec![format!(
        "devices {devices}, links {links}, paths {paths}, entries 0: nobody may ever start"
    )];
    lines.extend(initiators(plan));
    lines.extend(plan.timing.map(|timing| {
        let place = source.place(timing.offset);
        format!("  entries belong before the timing at {place}")
    }));
    lines
}

/// Each initiator, with the targets that its entries could have.
fn initiators(plan: &Plan) -> Vec<String> {
    let initiators = plan.initiators();
    if initiators.is_empty() {
        return vec!["  no path either, and so no initiator".to_string()];
    }
    let lines = |initiator| {
        let targets: Vec<_> = plan
            .targets_of(initiator)
            .iter()
            .map(u8::to_string)
            .collect();
        let head = format!("  initiator {initiator}: no entry; paths to");
        wrapped(&head, &targets)
    };
    initiators.into_iter().flat_map(lines).collect()
}
