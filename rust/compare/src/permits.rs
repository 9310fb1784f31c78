//! What the entries of a plan file permit.

use crate::replies;
use std::collections::BTreeMap;

/// An entry with one of its targets.
#[derive(Clone, Copy)]
pub struct Permit {
    pub initiator: u8,
    pub slot: u8,
    pub span: u8,
    pub target: u8,
    /// Routers on the path.
    pub command_routers: u8,
    /// Routers on the way of the reply.
    pub reply_routers: u8,
}

impl Permit {
    /// The same if the reply went back over the path.
    pub fn back_over_the_path(self) -> Self {
        Self {
            reply_routers: self.command_routers,
            ..self
        }
    }
}

/// Every entry with each of its targets that has a path.
pub fn permits(fields: &[Vec<u8>]) -> Vec<Permit> {
    let (paths, replies) = (routers(fields, 3), routers(fields, replies::TAG));
    let mut permits = Vec::new();
    for field in fields.iter().filter(|field| field[0] == 4) {
        let [initiator, slot, span, targets @ ..] = &field[3..] else {
            continue;
        };
        permits.extend(targets.iter().filter_map(|&target| {
            let pair = (*initiator, target);
            let command_routers = *paths.get(&pair)?;
            Some(Permit {
                initiator: *initiator,
                slot: *slot,
                span: *span,
                target,
                command_routers,
                reply_routers: *replies.get(&pair).unwrap_or(&command_routers),
            })
        }));
    }
    permits
}

/// The routers on each way given by the fields of this tag, by initiator and target.
fn routers(fields: &[Vec<u8>], tag: u8) -> BTreeMap<(u8, u8), u8> {
    let fields = fields.iter().filter(|field| field[0] == tag);
    let routers = fields.filter_map(|field| match &field[3..] {
        [initiator, target, _, between @ ..] => Some(((*initiator, *target), between.len() as u8)),
        _ => None,
    });
    routers.collect()
}
