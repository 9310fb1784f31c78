//! What a refusal is about, to be marked wherever it is drawn. Which initiators, slot, link or field it is, is the box's word.

use crate::fields::Entry;
use crate::html::element::Element;
use crate::plan::Plan;
use spwd::{Fault, Verdict};
use std::collections::BTreeSet;

/// Devices and links by their numbers, paths, replies and entries by the offset of their field.
#[derive(Debug, Default)]
pub struct Marks {
    pub devices: BTreeSet<u8>,
    pub links: BTreeSet<u8>,
    /// Links of the ways that meet.
    pub on_way: BTreeSet<u8>,
    pub ways: BTreeSet<usize>,
    pub entries: BTreeSet<usize>,
    pub slot: Option<u8>,
    /// Of intervals and slot times too, which stand in no drawing.
    field: Option<usize>,
    /// What is said beside a marked path or reply.
    pub words: String,
}

impl Marks {
    pub fn of(verdict: &Verdict, plan: &Plan) -> Self {
        match *verdict {
            Verdict::Accepted(_) => Self::default(),
            Verdict::Refused(Fault::File {
                number: Verdict::CUT_OFF..=Verdict::NO_PATH,
                place,
            }) => field(plan, place.into()),
            Verdict::Refused(Fault::File { .. }) => Self::default(),
            Verdict::Refused(Fault::Overrun { initiator, slot }) => overrun(plan, initiator, slot),
            Verdict::Refused(Fault::Clash {
                slot,
                smaller,
                greater,
                link,
            }) => clash(plan, slot, [smaller, greater], link),
        }
    }
}

impl Marks {
    /// An element that says what the field at an offset does, marked if this is the one that was refused.
    pub fn field(&self, element: Element, offset: usize, name: &str) -> Element {
        if self.field == Some(offset) {
            element.class("fault").with("data-fault", name)
        } else {
            element
        }
    }
}

/// The item of a field that was refused.
fn field(plan: &Plan, offset: usize) -> Marks {
    let mut marks = Marks {
        words: "refused here".to_string(),
        field: Some(offset),
        ..Marks::default()
    };
    let devices = plan.devices.iter().filter(|item| item.offset == offset);
    marks.devices.extend(devices.map(|device| device.number));
    let links = plan.links.iter().filter(|item| item.offset == offset);
    marks.links.extend(links.map(|link| link.number));
    marks.ways.insert(offset);
    marks.entries.insert(offset);
    marks
}

/// The entry that runs on, and those of the same initiator that begin meanwhile.
fn overrun(plan: &Plan, initiator: u8, slot: u8) -> Marks {
    let mut marks = Marks::default();
    let Some(entry) = plan.entry(initiator, slot) else {
        return marks;
    };
    let own = plan.entries_of(initiator);
    let begin = own.filter(|after| entry.covers(after.slot));
    marks.entries.extend(begin.map(|after| after.offset));
    marks
}

/// Of both initiators the entry that covers the slot and has targets over the link, the ways of these, and the link.
fn clash(plan: &Plan, slot: u8, both: [u8; 2], link: u8) -> Marks {
    let mut marks = Marks {
        links: [link].into(),
        slot: Some(slot),
        words: format!("clash on link {link} in slot {slot}"),
        ..Marks::default()
    };
    for initiator in both {
        for entry in plan
            .entries_of(initiator)
            .filter(|entry| entry.covers(slot))
        {
            meets(plan, entry, link, &mut marks);
        }
    }
    marks
}

/// Marks an entry, if a way of a target of it goes over the link, and all such ways.
fn meets(plan: &Plan, entry: &Entry, link: u8, marks: &mut Marks) {
    for &target in entry.targets {
        let path = plan.path(entry.initiator, target);
        let reply = plan.reply(entry.initiator, target);
        let path = path.map(|path| (path.offset, path.links));
        let reply = reply.map(|reply| (reply.offset, reply.links));
        for (offset, links) in path.into_iter().chain(reply) {
            if links.contains(&link) {
                marks.entries.insert(entry.offset);
                marks.ways.insert(offset);
                marks.on_way.extend(links);
            }
        }
    }
}
