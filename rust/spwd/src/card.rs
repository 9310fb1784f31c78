//! The tables of docs/CARD.md, written by .ci/words: change the words on the card.

use crate::words::Row;

/// The verdicts, by their numbers.
pub static VERDICTS: [Row; 16] = [
    Row {
        number: 0,
        about: "devices links paths entries",
        means: "the plan is in the box",
        to_do: "compare the fingerprint with the team's own, not the four counts",
    },
    Row {
        number: 1,
        about: "0",
        means: "the file is longer than 16,384 bytes",
        to_do: "it is not a plan, or two files were joined; ask for the plan alone",
    },
    Row {
        number: 2,
        about: "offset",
        means: "the file ends in the middle of a field",
        to_do: "it was cut off when copied, or is no plan file but text; copy it again",
    },
    Row {
        number: 3,
        about: "offset",
        means: "a field of a kind that does not exist",
        to_do: "the file is damaged, or made for another box; kinds are 01 to 07",
    },
    Row {
        number: 4,
        about: "offset",
        means: "a field out of order, or a second field of timing or of slot times",
        to_do: "devices, links, paths, entries, timing, slot times, replies: in this order; timing and slot times once",
    },
    Row {
        number: 5,
        about: "offset",
        means: "a field of a wrong length",
        to_do: "too many links in a path or reply (8) or targets in an entry (16), none at all, or damage",
    },
    Row {
        number: 6,
        about: "offset",
        means: "a number out of range, or a link, path or reply from a device to itself",
        to_do: "devices, links and slots are 0 to 63, spans 1 to 16, kinds 0 and 1; greatest interval 1 to 2,147,483,647 and not below the least; rate 2 to 400 Mbit/s, latencies and slot length up to 1,000,000 ns",
    },
    Row {
        number: 7,
        about: "offset",
        means: "given a second time",
        to_do: "the device, link, path, entry or reply stands earlier in the file, or a target stands twice in this entry",
    },
    Row {
        number: 8,
        about: "offset",
        means: "something is named that was not given, or a router as initiator or target",
        to_do: "give the device or link first; initiators and targets are nodes, in a reply too",
    },
    Row {
        number: 9,
        about: "offset",
        means: "a ninth initiator, or path number 129",
        to_do: "the box runs 8 initiators and 128 paths; replies are not counted",
    },
    Row {
        number: 10,
        about: "offset",
        means: "the links of a path do not lead from its initiator to its target, or those of a reply not from the target back to the initiator",
        to_do: "they must join end to end, over routers, meeting no device twice; a reply's begin at the target",
    },
    Row {
        number: 11,
        about: "offset",
        means: "an entry names a target to which its initiator has no path, or a reply comes from such a target",
        to_do: "add the path, or take the target or the reply out",
    },
    Row {
        number: 12,
        about: "file length",
        means: "the timing field is missing",
        to_do: "the plan is not complete; slot times are no timing",
    },
    Row {
        number: 13,
        about: "initiator slot",
        means: "this entry is still running when the same initiator's next entry begins",
        to_do: "shorten its span or move the next entry (after slot 63 comes slot 0)",
    },
    Row {
        number: 14,
        about: "slot, two initiators, link",
        means: "in this slot both may be using this link, for a command or for a reply",
        to_do: "move one of the two, or take the targets apart that share the link; if only a reply's own way does, choose another",
    },
    Row {
        number: 15,
        about: "file length",
        means: "the plan has no entry: nobody may ever start, and the network would stay silent",
        to_do: "the table of slots is missing; do not hand the box out, ask the team for the whole plan",
    },
];

/// The refusals, by their numbers.
pub static REFUSALS: [Row; 12] = [
    Row {
        number: 20,
        about: "all events, next turn, writing out",
        means: "there is no plan in the box",
        to_do: "load one",
    },
    Row {
        number: 21,
        about: "time-code",
        means: "the upper two bits of the byte are not 0",
        to_do: "it is not a plain time-code; look at its source",
    },
    Row {
        number: 22,
        about: "request, reply, next turn",
        means: "this number is no initiator of the plan",
        to_do: "an initiator stands first in some path of the plan",
    },
    Row {
        number: 23,
        about: "request",
        means: "the kind is neither 0 (read) nor 1 (write)",
        to_do: "correct the request",
    },
    Row {
        number: 24,
        about: "request, next turn",
        means: "more than 4,096 data bytes",
        to_do: "split the request",
    },
    Row {
        number: 25,
        about: "request, next turn",
        means: "no entry of this initiator permits this target with this length",
        to_do: "256 bytes for each slot of the span, or with slot times what the plan's sheet says: shorter, or another plan",
    },
    Row {
        number: 26,
        about: "request",
        means: "eight requests of this initiator are waiting",
        to_do: "wait for starts; nothing was lost but this request",
    },
    Row {
        number: 27,
        about: "reply",
        means: "nothing of this initiator is under way",
        to_do: "it was answered before, or reported late",
    },
    Row {
        number: 28,
        about: "reply",
        means: "another transaction is under way",
        to_do: "the number is not the live one's: a reply that comes too late",
    },
    Row {
        number: 29,
        about: "time-code",
        means: "the record buffer has fewer than 136 bytes",
        to_do: "lend 17 records of 8 bytes",
    },
    Row {
        number: 30,
        about: "writing out",
        means: "the room is smaller than the plan",
        to_do: "16,384 bytes are always enough",
    },
    Row {
        number: 33,
        about: "next turn",
        means: "there is no such slot",
        to_do: "slots are 0 to 63",
    },
];

/// The records, by their kinds.
pub static RECORDS: [Row; 6] = [
    Row {
        number: 1,
        about: "",
        means: "this time-code came early",
        to_do: "the slots are shorter than planned: look at the time-code source",
    },
    Row {
        number: 2,
        about: "",
        means: "this time-code came late",
        to_do: "as for 1; a clock that was set back shows as late too",
    },
    Row {
        number: 3,
        about: "",
        means: "this time-code is not the next one: nothing starts in this slot",
        to_do: "look at the time-code source; what was under way is reported late",
    },
    Row {
        number: 4,
        about: "",
        means: "late: no reply came within the span",
        to_do: "the transaction is over for the box; ask its target",
    },
    Row {
        number: 5,
        about: "",
        means: "started: initiator, target, number, length",
        to_do: "nothing",
    },
    Row {
        number: 6,
        about: "",
        means: "not started: an earlier transaction of this initiator is still under way",
        to_do: "the spans of an accepted plan leave no room for this; if it is ever seen, keep the box and its record buffer for examination",
    },
];

/// A number that the card does not have.
pub const UNKNOWN: Row = Row {
    number: 0,
    about: "",
    means: "not on the card",
    to_do: "ask for a newer card",
};
