//! The plan that the fields of a file give, to look things up in. Whether it may be loaded is for the box to say.

use crate::fields::{
    fields, numbers, Device, Entry, Field, Item, Link, Path, Reply, Times, Timing,
};
use crate::ways::{Routers, Way};

#[derive(Debug, Default)]
pub struct Plan<'a> {
    pub devices: Vec<Device>,
    pub links: Vec<Link>,
    pub paths: Vec<Path<'a>>,
    pub entries: Vec<Entry<'a>>,
    pub timing: Option<Timing>,
    pub times: Option<Times>,
    pub replies: Vec<Reply<'a>>,
}

impl<'a> Plan<'a> {
    /// All items of a file.
    pub fn of(file: &'a [u8]) -> Self {
        Self::given(&fields(file))
    }

    pub fn given(fields: &[Field<'a>]) -> Self {
        let mut plan = Self::default();
        for item in fields.iter().filter_map(Field::item) {
            match item {
                Item::Device(device) => plan.devices.push(device),
                Item::Link(link) => plan.links.push(link),
                Item::Path(path) => plan.paths.push(path),
                Item::Entry(entry) => plan.entries.push(entry),
                Item::Timing(timing) => plan.timing = Some(timing),
                Item::Times(times) => plan.times = Some(times),
                Item::Reply(reply) => plan.replies.push(reply),
            }
        }
        plan
    }

    pub fn device(&self, number: u8) -> Option<Device> {
        let found = self.devices.iter().find(|device| device.number == number);
        found.copied()
    }

    pub fn link(&self, number: u8) -> Option<Link> {
        let found = self.links.iter().find(|link| link.number == number);
        found.copied()
    }

    pub fn path(&self, initiator: u8, target: u8) -> Option<Path<'a>> {
        let found = self
            .paths
            .iter()
            .find(|path| (path.initiator, path.target) == (initiator, target));
        found.copied()
    }

    /// The way home of a pair's reply, where it has its own.
    pub fn reply(&self, initiator: u8, target: u8) -> Option<Reply<'a>> {
        let found = self
            .replies
            .iter()
            .find(|reply| (reply.initiator, reply.target) == (initiator, target));
        found.copied()
    }

    /// Of a transaction over a path. Without a way of its own the reply goes back over the path's links.
    pub fn routers(&self, path: &Path) -> Routers {
        let command = path.way().routers();
        let reply = self.reply(path.initiator, path.target);
        Routers {
            command,
            reply: reply.map_or(command, |reply| reply.way().routers()),
        }
    }

    pub fn entry(&self, initiator: u8, slot: u8) -> Option<Entry<'a>> {
        let found = self
            .entries
            .iter()
            .find(|entry| (entry.initiator, entry.slot) == (initiator, slot));
        found.copied()
    }

    pub fn entries_of(&self, initiator: u8) -> impl Iterator<Item = &Entry<'a>> {
        self.entries
            .iter()
            .filter(move |entry| entry.initiator == initiator)
    }

    /// The devices that stand first in some path, rising.
    pub fn initiators(&self) -> Vec<u8> {
        let mut initiators: Vec<_> = self.paths.iter().map(|path| path.initiator).collect();
        initiators.sort_unstable();
        initiators.dedup();
        initiators
    }

    /// The targets that an initiator has paths to, rising.
    pub fn targets_of(&self, initiator: u8) -> Vec<u8> {
        let paths = self.paths.iter();
        let own = paths.filter(|path| path.initiator == initiator);
        let mut targets: Vec<_> = own.map(|path| path.target).collect();
        targets.sort_unstable();
        targets
    }

    /// The devices that a way meets, the one where it begins first; or what keeps its links from being a walk.
    pub fn walk(&self, way: &Way) -> Result<Vec<u8>, String> {
        let mut met = vec![way.from];
        let mut here = way.from;
        for (place, &link) in way.links.iter().enumerate() {
            here = self.step(way, place, here, link)?;
            if met.contains(&here) {
                return Err(format!(
                    "link {link} leads back to device {here}, which was met before"
                ));
            }
            met.push(here);
            let last = place + 1 == way.links.len();
            let router = self.device(here).is_some_and(|device| device.kind == 1);
            if !last && !router {
                return Err(format!(
                    "link {link} leads to node {here}, and more links follow: between the ends only routers are met"
                ));
            }
        }
        if here != way.to {
            let (end, to) = (way.ends[1], way.to);
            return Err(format!(
                "the last link leads to device {here}, and the {end} is {to}"
            ));
        }
        Ok(met)
    }

    /// The device at the other end of a link.
    fn step(&self, way: &Way, place: usize, here: u8, link: u8) -> Result<u8, String> {
        let [one, other] = self
            .link(link)
            .ok_or(format!("link {link} was not given"))?
            .ends;
        let (name, begin) = (way.name, way.ends[0]);
        match (here == one, here == other) {
            (true, _) => Ok(other),
            (_, true) => Ok(one),
            _ if place == 0 => Err(format!("link {link} joins devices {one} and {other} and does not touch {begin} {here}, where a {name} begins")),
            _ => Err(format!("link {link} joins devices {one} and {other} and does not touch {here}, where the {name} is by then")),
        }
    }

    /// A way as a walk, "1 -0- 10 -2- 3"; a link to be shown stands between double lines, "1 =0= 10".
    pub fn drawn(&self, way: &Way, shown: Option<u8>) -> String {
        let Ok(met) = self.walk(way) else {
            return format!("over links {}", numbers(way.links));
        };
        let mut drawn = way.from.to_string();
        for (&link, device) in way.links.iter().zip(&met[1..]) {
            let line = if shown == Some(link) { '=' } else { '-' };
            drawn += &format!(" {line}{link}{line} {device}");
        }
        drawn
    }
}
