//! The two ways of a transaction: its command goes over the links of a path, its reply over these or over links of its own.

use crate::fields::{Path, Reply};

/// Links to be walked from one device to another.
#[derive(Clone, Copy, Debug, PartialEq, Eq)]
pub struct Way<'a> {
    pub from: u8,
    pub to: u8,
    pub links: &'a [u8],
    /// What it is the way of, and what its ends are called.
    pub name: &'static str,
    pub ends: [&'static str; 2],
}

impl<'a> Path<'a> {
    pub fn way(&self) -> Way<'a> {
        Way {
            from: self.initiator,
            to: self.target,
            links: self.links,
            name: "path",
            ends: ["initiator", "target"],
        }
    }
}

impl<'a> Reply<'a> {
    pub fn way(&self) -> Way<'a> {
        Way {
            from: self.target,
            to: self.initiator,
            links: self.links,
            name: "reply",
            ends: ["target", "initiator"],
        }
    }
}

impl Way<'_> {
    /// The links less one.
    pub fn routers(&self) -> u8 {
        self.links.len().saturating_sub(1) as u8
    }
}

/// The routers that the command goes through, and those that its reply does.
#[derive(Clone, Copy, Debug, PartialEq, Eq)]
pub struct Routers {
    pub command: u8,
    pub reply: u8,
}

impl Routers {
    /// Of a reply that goes back over the command's links.
    pub fn both(count: u8) -> Self {
        Self {
            command: count,
            reply: count,
        }
    }
}
