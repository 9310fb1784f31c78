//! `spwd-show --next`: the turns of a request under a plan, its next turn after one slot, and what is refused.

mod common;

use common::{bytes, expected, plans, root, run, Chance, SHOW};
use desk::form::compile;
use desk::judge::judge;
use desk::turns::{Question, Wanted};
use std::fs;

/// What is asked about a plan, and what is printed.
#[track_caller]
fn says(plan: &str, words: &str, said: &str, status: i32) {
    let plan = format!("plans/{plan}.plan");
    let words: Vec<_> = ["--next"].into_iter().chain(words.split(' ')).collect();
    let ran = run(SHOW, &[&words[..], &[&plan]].concat(), b"");
    assert_eq!(ran.text(), said, "{words:?}");
    assert_eq!((ran.err.as_str(), ran.status), ("", status), "{words:?}");
}

/// One turn, several, one in every slot; over 63 to 0, by slot times and by the way of a reply.
#[test]
fn pages() {
    for (plan, words, stored) in [
        ("guide", "2 20 513", "one"),
        ("guide", "2 20 512", "two"),
        ("eight", "6 31 1024", "eight"),
        ("eight", "1 11 0", "thirty-two"),
        ("always", "1 3 256", "every"),
        ("over-63-alone", "1 3 512", "over-63"),
        ("guide-times", "2 20 985", "times"),
        ("guide-reply", "2 20 985", "reply"),
    ] {
        says(plan, words, &expected(&format!("next/{stored}.txt")), 0);
    }
}

/// After the slot, that slot again, and over 63 to 0; a slot that an entry only covers is no turn.
#[test]
fn after_one_slot() {
    for (plan, words, said) in [
        (
            "guide",
            "1 20 40 5",
            "initiator 1 to target 20, 40 bytes, after slot 5: in slot 0, 59 slots on",
        ),
        (
            "guide",
            "1 20 1 63",
            "initiator 1 to target 20, 1 byte, after slot 63: in slot 0, 1 slot on",
        ),
        (
            "guide",
            "1 20 0 0",
            "initiator 1 to target 20, 0 bytes, after slot 0: in slot 0 again, 64 slots on",
        ),
        (
            "guide",
            "1 21 256 0",
            "initiator 1 to target 21, 256 bytes, after slot 0: in slot 1, 1 slot on",
        ),
        (
            "guide",
            "1 21 257 1",
            "initiator 1 to target 21, 257 bytes, after slot 1: in slot 1 again, 64 slots on",
        ),
        (
            "over-63-alone",
            "1 3 512 62",
            "initiator 1 to target 3, 512 bytes, after slot 62: in slot 63, 1 slot on",
        ),
        (
            "over-63-alone",
            "1 3 0 63",
            "initiator 1 to target 3, 0 bytes, after slot 63: in slot 63 again, 64 slots on",
        ),
        (
            "guide-reply",
            "2 20 972 0061",
            "initiator 2 to target 20, 972 bytes, after slot 61: in slot 62, 1 slot on",
        ),
        (
            "guide-reply",
            "2 20 973 61",
            "initiator 2 to target 20, 973 bytes, after slot 61: in slot 1, 4 slots on",
        ),
    ] {
        says(plan, words, &format!("next turn of {said}\n"), 0);
    }
}

/// Each refusal, with what to do; the smaller number comes first.
#[test]
fn refusals() {
    let not_permitted =
        "refused 25: no entry of this initiator permits this target with this length\n";
    let shorter = "    to do: 256 bytes for each slot of the span, or with slot times what the plan's sheet says: shorter, or another plan\n";
    let initiator = "refused 22: this number is no initiator of the plan\n    to do: an initiator stands first in some path of the plan\n";
    let long = "refused 24: more than 4,096 data bytes\n    to do: split the request\n";
    let slot = "refused 33: there is no such slot\n    to do: slots are 0 to 63\n";
    let permitted = format!("{not_permitted}{shorter}");
    let timed = format!("{not_permitted}    by the plan's slot times: 266 bytes over 1 router: 36050 ns; longest span to target 20: 36000 ns\n{shorter}");
    for (plan, words, what, said) in [
        ("guide", "20 1 0", "20 to target 1, 0 bytes", initiator),
        (
            "guide",
            "255 255 65535 255",
            "255 to target 255, 65535 bytes, after slot 255",
            initiator,
        ),
        ("guide", "1 20 4097", "1 to target 20, 4097 bytes", long),
        (
            "guide",
            "1 3 4097 64",
            "1 to target 3, 4097 bytes, after slot 64",
            long,
        ),
        ("guide", "1 20 257", "1 to target 20, 257 bytes", &permitted),
        ("guide", "2 21 0", "2 to target 21, 0 bytes", &permitted),
        (
            "guide",
            "2 200 0 64",
            "2 to target 200, 0 bytes, after slot 64",
            &permitted,
        ),
        (
            "guide-times",
            "1 20 266",
            "1 to target 20, 266 bytes",
            &timed,
        ),
        (
            "guide-times",
            "1 20 266 64",
            "1 to target 20, 266 bytes, after slot 64",
            &timed,
        ),
        (
            "guide",
            "1 20 256 64",
            "1 to target 20, 256 bytes, after slot 64",
            slot,
        ),
        (
            "guide",
            "1 20 256 255",
            "1 to target 20, 256 bytes, after slot 255",
            slot,
        ),
    ] {
        let head = if words.split(' ').count() == 3 {
            "turns of initiator"
        } else {
            "next turn of initiator"
        };
        says(plan, words, &format!("{head} {what}: {said}"), 1);
    }
}

/// A plan that is refused is shown as without a question, and lines that are no item are said.
#[test]
fn no_plan_to_ask() {
    for plan in ["juice", "no-entry", "reply-clash", "sample-empty"] {
        let shown = run(SHOW, &[&format!("plans/{plan}.plan")], b"");
        assert_eq!(shown.status, 1);
        says(plan, "1 20 40", shown.text(), 1);
        says(plan, "1 20 40 64", shown.text(), 1);
    }
    let ran = run(SHOW, &["--next", "1", "20", "40", "--text"], b"what 1\n");
    assert_eq!((ran.text(), ran.status), ("", 2));
    assert!(
        ran.err.starts_with("standard input:1: what 1\n"),
        "{}",
        ran.err
    );
}

/// From a text, a file and standard input, wherever the words stand.
#[test]
fn forms() {
    let said =
        "next turn of initiator 2 to target 20, 40 bytes, after slot 5: in slot 62, 57 slots on\n";
    let text = fs::read(root().join("plans/guide.plan")).unwrap();
    let file = bytes("plans/guide.plan");
    for (words, input) in [
        (
            &["plans/guide.plan", "--next", "2", "20", "40", "5"][..],
            &b""[..],
        ),
        (&["--next", "2", "20", "40", "plans/guide.plan", "5"], b""),
        (&["--next", "2", "20", "40", "5"], &file),
        (&["--next", "2", "20", "40", "5", "-"], &file),
        (
            &["--bytes", "--next", "2", "20", "40", "5", "--", "-"],
            &file,
        ),
        (&["--next", "2", "20", "40", "--text", "5"], &text),
        (&["--next", "2", "20", "40", "5", "--text", "-"], &text),
    ] {
        let ran = run(SHOW, words, input);
        assert_eq!(
            (ran.text(), ran.err.as_str(), ran.status),
            (said, "", 0),
            "{words:?}"
        );
    }
    let page = expected("next/two.txt");
    let ran = run(SHOW, &["--next", "2", "20", "512"], &file);
    assert_eq!(
        (ran.text(), ran.err.as_str(), ran.status),
        (&page[..], "", 0)
    );
    // A file whose name is a number.
    let ran = run(SHOW, &["--next", "2", "20", "40", "./5"], b"");
    let missing = "spwd-show: ./5: No such file or directory (os error 2)\n";
    assert_eq!((ran.text(), ran.err.as_str(), ran.status), ("", missing, 3));
}

/// What a page says: the turns, and the counts from slots 0 to 63.
fn read_back(lines: &[String]) -> (Vec<usize>, Vec<usize>) {
    let numbers = |text: &str| -> Vec<usize> {
        let words = text.split_ascii_whitespace();
        words.map(|word| word.parse().unwrap()).collect()
    };
    let blank = lines.iter().position(String::is_empty).unwrap();
    let turns = lines[1..blank - 1].join(" ");
    let (_, turns) = turns.split_once(" slots:").unwrap();
    let mut counts = Vec::new();
    for pair in lines[blank + 2..].chunks(3) {
        let (slots, row) = (
            pair[0].strip_prefix("  slot"),
            pair[1].strip_prefix("    on"),
        );
        let (slots, row) = (numbers(slots.unwrap()), numbers(row.unwrap()));
        let first = counts.len();
        assert_eq!(slots, (first..first + 16).collect::<Vec<_>>());
        counts.extend(row);
    }
    (numbers(turns), counts)
}

/// Of a plan by chance in which initiator 0 has targets 1 to 3, the page says what the entries do, read one by one.
#[test]
fn pages_as_by_the_entries() {
    let network = "node 0\nnode 1\nnode 2\nnode 3\nrouter 9\nlink 0 0 9\nlink 1 1 9\nlink 2 2 9\nlink 3 3 9\npath 0 1 0 1\npath 0 2 0 2\npath 0 3 0 3\n";
    let mut chance = Chance(0x5eed_0402);
    let (mut answered, mut refused) = (0, 0);
    for _ in 0..200 {
        let (mut text, mut entries, mut at) = (network.to_string(), Vec::new(), chance.below(40));
        while at < 64 {
            let (span, targets) = (1 + chance.below(4.min(64 - at)), 1 + chance.below(7));
            let targets: Vec<_> = (1..4)
                .filter(|target| targets >> (target - 1) & 1 == 1)
                .collect();
            let words: Vec<_> = targets.iter().map(usize::to_string).collect();
            text += &format!("entry 0 {at} {span} {}\n", words.join(" "));
            entries.push((at, span, targets));
            at += span + chance.below(20);
        }
        text += "intervals 0 1\n";
        let desk = judge(&compile(text.as_bytes()).unwrap().bytes).desk;
        let (target, length) = (1 + chance.below(3), chance.below(1_100));
        let permits = |(at, span, targets): &(usize, usize, Vec<usize>), slot| {
            *at == slot && targets.contains(&target) && length <= 256 * span
        };
        let is_turn = |slot| entries.iter().any(|entry| permits(entry, slot));
        let wanted = Wanted {
            initiator: 0,
            target: target as u8,
            length: length as u16,
        };
        let Ok(lines) = (Question { wanted, slot: None }).answer(&desk) else {
            assert!(!(0..64).any(is_turn), "{text}");
            refused += 1;
            continue;
        };
        let turns: Vec<_> = (0..64).filter(|&slot| is_turn(slot)).collect();
        let next = |slot| (1..65).find(|count| is_turn((slot + count) % 64)).unwrap();
        let counts: Vec<_> = (0..64).map(next).collect();
        let most = counts.iter().max().unwrap();
        let after = counts.iter().position(|count| count == most).unwrap();
        let farthest = format!("  farthest after slot {after}: {most} slot");
        assert!(
            lines.iter().any(|line| line.starts_with(&farthest)),
            "{lines:?}"
        );
        assert_eq!(read_back(&lines), (turns, counts), "{text}");
        answered += 1;
    }
    assert!(answered > 100 && refused > 10, "{answered} {refused}");
}

/// No line of a page is wider than 80 columns.
#[test]
fn width() {
    for plan in plans("plans") {
        let ran = run(SHOW, &["--next", "1", "3", "1", &plan], b"");
        if ran.status == 0 {
            let widest = ran.text().lines().map(str::len).max();
            assert!(widest <= Some(80), "{plan}: {widest:?}");
        }
    }
}
