//! Field 07 of a plan, and how the ways of commands and of replies meet in a clash.

pub const TAG: u8 = 7;

/// What has the link of a clash in common.
#[derive(Clone, Copy, Debug, PartialEq, Eq)]
pub enum Met {
    Commands,
    SmallerCommand,
    GreaterCommand,
    Replies,
    ReplyFirst,
    CommandFirst,
}

impl Met {
    /// In their order.
    pub const ALL: [(Self, &str); 6] = [
        (Self::Commands, "of commands alone"),
        (
            Self::SmallerCommand,
            "of the smaller's command and the greater's reply alone",
        ),
        (
            Self::GreaterCommand,
            "of the smaller's reply and the greater's command alone",
        ),
        (Self::Replies, "of replies alone"),
        (
            Self::ReplyFirst,
            "at a link by a reply below those of the commands",
        ),
        (
            Self::CommandFirst,
            "at a link by a command below those of the replies",
        ),
    ];
}

/// How the two initiators of a clash meet, by the numbers of verdict 14 on a file with these fields.
pub fn met(fields: &[Vec<u8>], [_, slot, smaller, greater, link]: [u32; 5]) -> Vec<Met> {
    let one = Ways::of(fields, smaller as u8, slot as u8);
    let other = Ways::of(fields, greater as u8, slot as u8);
    let has = |links: u64| links >> link & 1 == 1;
    let ways = [one.commands, one.replies, other.commands, other.replies];
    let mut met = Vec::new();
    met.extend(match ways.map(has) {
        [true, false, true, false] => Some(Met::Commands),
        [true, false, false, true] => Some(Met::SmallerCommand),
        [false, true, true, false] => Some(Met::GreaterCommand),
        [false, true, false, true] => Some(Met::Replies),
        _ => None,
    });
    let commands = one.commands & other.commands;
    let replies = one.replies & other.replies;
    met.extend((commands != 0 && !has(commands)).then_some(Met::ReplyFirst));
    met.extend((replies != 0 && !has(replies)).then_some(Met::CommandFirst));
    met
}

/// The links, as bits, that an initiator's commands go over in a slot, and those of the replies to them.
#[derive(Default)]
struct Ways {
    commands: u64,
    replies: u64,
}

impl Ways {
    fn of(fields: &[Vec<u8>], initiator: u8, slot: u8) -> Self {
        let covers = |field: &&Vec<u8>| {
            field[0] == 4 && field[3] == initiator && (slot + 64 - field[4]) % 64 < field[5]
        };
        let mut ways = Self::default();
        for &target in fields.iter().filter(covers).flat_map(|field| &field[6..]) {
            let command = links(fields, 3, initiator, target).unwrap_or(0);
            ways.commands |= command;
            ways.replies |= links(fields, TAG, initiator, target).unwrap_or(command);
        }
        ways
    }
}

/// The links of a path or a reply.
fn links(fields: &[Vec<u8>], tag: u8, initiator: u8, target: u8) -> Option<u64> {
    let mut fields = fields.iter();
    let found = fields.find(|field| field[0] == tag && field[3..5] == [initiator, target])?;
    Some(as_bits(&found[5..]))
}

/// Links as bits.
pub fn as_bits(links: &[u8]) -> u64 {
    links.iter().fold(0, |bits, link| bits | 1 << link)
}
