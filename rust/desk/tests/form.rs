//! The text form: what a line that cannot be written is told, and what compiles though the box refuses it.

mod common;

use common::{run, Chance, COMPILE};
use desk::form::{compile, in_words};
use desk::invisible::is_invisible;
use desk::judge::judge;
use desk::layout::printable;
use desk::streams::Status;

/// What is said of a text with one line.
fn said(line: &str) -> Vec<String> {
    let complaints = compile(line.as_bytes()).expect_err(line);
    in_words("t", &complaints)
}

fn complains(line: &str, right: &[&str]) {
    let mut lines = vec![format!("t:1: {line}")];
    lines.extend(right.iter().map(|right| format!("    {right}")));
    assert_eq!(said(line), lines);
}

/// Each number with the range that the box takes.
#[test]
fn numbers_that_cannot_be_written() {
    let number = "300 is too great; right is a number from 0 to 63";
    for line in [
        "node 300",
        "router 300",
        "link 300 1 2",
        "link 0 1 300",
        "path 300 2 0",
        "path 1 300 0",
        "path 1 2 0 1 300",
        "entry 300 0 1 2",
        "entry 1 300 1 2",
        "entry 1 0 1 300",
        "entry 1 0 1 2 3 300",
        "reply 1 2 300",
        "name 300 camera",
    ] {
        complains(line, &[number]);
    }
    let span = "300 is too great; right is a number from 1 to 16";
    complains("entry 1 0 300 2", &[span]);
    complains(
        "entry x 0 -1 2",
        &[
            "'x' is no number; right is a number in decimal digits, 0 to 63",
            "'-1' is no number; right is a number in decimal digits, 1 to 16",
        ],
    );
    complains(
        "intervals 4294967296 4294967296",
        &[
            "4294967296 is too great; right is a number from 0 to 2147483647",
            "4294967296 is too great; right is a number from 1 to 2147483647",
        ],
    );
    complains(
        "times 65536 4294967296 0 0 0 x",
        &[
            "65536 is too great; right is a number from 2 to 400",
            "4294967296 is too great; right is a number from 0 to 1000000",
            "'x' is no number; right is a number in decimal digits, 0 to 1000000",
        ],
    );
}

/// Numbers out of range that a field has room for: the box refuses them, with 6.
#[test]
fn numbers_that_the_box_refuses() {
    for line in [
        "node 64",
        "router 255",
        "link 255 1 2",
        "path 1 255 0",
        "entry 1 64 1 2",
        "entry 1 0 0 2",
        "entry 1 0 17 255",
        "intervals 0 0",
        "intervals 0 2147483648",
        "times 1 0 0 0 0 0",
        "times 65535 0 0 0 0 0",
        "times 200 0 0 0 0 4294967295",
    ] {
        let compiled = compile(line.as_bytes()).unwrap_or_else(|_| panic!("{line}"));
        let verdict = judge(&compiled.bytes).verdict.to_string();
        assert_eq!(verdict, "REFUSED 6 0", "{line}");
    }
}

/// More targets and links than an entry or a path may have: the box refuses them with 5, as long as they can be written.
#[test]
fn targets_and_links() {
    for (line, words, number) in [
        ("entry 1 0 1", 3, "at most 19 (16 targets): entry I S N T.. (initiator I at slot S with span N may start to the targets T)"),
        ("path 1 2", 2, "at most 10 (8 links): path I T L.. (from initiator I to target T over the links L)"),
        ("reply 1 2", 2, "at most 10 (8 links): reply I T L.. (from target T back to initiator I over the links L)"),
    ] {
        let with = |more: usize| format!("{line}{}", " 3".repeat(more));
        for more in [9, 17, 65_535 - words] {
            let compiled = compile(with(more).as_bytes()).unwrap();
            let verdict = judge(&compiled.bytes).verdict.to_string();
            let right = match more {
                9 if words == 3 => "REFUSED 7 0",
                _ if compiled.bytes.len() > 16_384 => "REFUSED 1 0",
                _ => "REFUSED 5 0",
            };
            assert_eq!(verdict, right, "{line} {more}");
        }
        let (first, _) = line.split_once(' ').unwrap();
        let lines = said(&with(65_536 - words));
        let right = format!("    behind '{first}' stand 65536 words and should stand {number}");
        assert_eq!(lines[1..], [right]);
    }
}

/// Blanks that are none, marks of no width, controls of direction: each shown as its code, and none taken for a space.
#[test]
fn characters_that_nobody_sees() {
    for (text, shown) in [
        ("node\u{a0}1", "node\\u{a0}1"),
        ("node\u{3000}1", "node\\u{3000}1"),
        ("no\u{200b}de 1", "no\\u{200b}de 1"),
        ("no\u{ad}de 1", "no\\u{ad}de 1"),
        ("\u{202e}node 1", "\\u{202e}node 1"),
        ("\u{2066}node 1", "\\u{2066}node 1"),
        ("n\u{feff}ode 1", "n\\u{feff}ode 1"),
        ("node\u{b}1", "node\\u{b}1"),
        ("node\r1", "node\\r1"),
    ] {
        let first = shown.split(' ').next().unwrap();
        let right = format!("    '{first}' begins no item; an item begins with one of: node, router, link, path, entry, intervals, times, reply, name, bytes");
        assert_eq!(said(text), [format!("t:1: {shown}"), right]);
    }
    let digits = "    '1\\u{200d}' is no number; right is a number in decimal digits, 0 to 63";
    assert_eq!(said("node 1\u{200d}"), ["t:1: node 1\\u{200d}", digits]);
    let byte = "    '0\\u{ad}1' is no byte; right are two hex digits, 00 to ff";
    assert_eq!(said("bytes 0\u{ad}1"), ["t:1: bytes 0\\u{ad}1", byte]);
}

/// The text with a byte order mark in front of it has none inside; a second one is shown.
#[test]
fn byte_order_marks() {
    assert!(compile("\u{feff}node 1".as_bytes()).is_ok());
    let lines = said("\u{feff}\u{feff}node 1");
    assert_eq!(lines[0], "t:1: \\u{feff}node 1");
}

/// What is seen stays as it is, the tab and the space too; every character of Unicode is one or the other.
#[test]
fn printable_characters() {
    let seen = "aä<>&\"'#\\ Ω日e\u{301}\u{1f6f0}\t~";
    assert_eq!(printable(seen.as_bytes()), seen);
    assert_eq!(printable(b"a\xffb"), "a\u{fffd}b");
    for character in ('\0'..=char::MAX).filter(|&character| is_invisible(character)) {
        let shown = printable(character.to_string().as_bytes());
        let seen = shown.chars().all(|shown| ('!'..='~').contains(&shown));
        assert!(seen || character == '\t', "{shown}");
    }
    assert!(!is_invisible(' '));
}

#[test]
fn said_by_the_program() {
    let ran = run(COMPILE, &["-"], "node 300\nnode\u{a0}1\n".as_bytes());
    let said = "standard input:1: node 300\n    300 is too great; right is a number from 0 to 63\nstandard input:2: node\\u{a0}1\n    'node\\u{a0}1' begins no item; an item begins with one of: node, router, link, path, entry, intervals, times, reply, name, bytes\n";
    assert_eq!((ran.text(), ran.err.as_str()), ("", said));
    assert_eq!(ran.status, Status::Complaints as i32);
}

/// Lines of words by chance: what is no item is complained of with its own line, rising, and with what is right.
#[test]
fn texts_by_chance() {
    let mut chance = Chance(0x5eed_0904);
    let words = [
        "node",
        "router",
        "link",
        "path",
        "entry",
        "intervals",
        "times",
        "reply",
        "name",
        "bytes",
        "0",
        "1",
        "63",
        "64",
        "255",
        "256",
        "x",
        "ff",
        "#",
        "ä",
        "\u{200b}",
        "\u{feff}",
        "\t",
        "\r",
    ];
    let (mut compiled, mut complained) = (0, 0);
    for _ in 0..5_000 {
        let mut text = String::new();
        for _ in 0..chance.below(4) {
            let line = (0..chance.below(5)).map(|_| words[chance.below(words.len())]);
            text += &format!("{}\n", line.collect::<Vec<_>>().join(" "));
        }
        match compile(text.as_bytes()) {
            Ok(_) => compiled += 1,
            Err(complaints) => {
                let lines: Vec<_> = complaints.iter().map(|complaint| complaint.line).collect();
                assert!(lines.is_sorted() && lines.iter().all(|line| (1..=3).contains(line)));
                assert!(complaints
                    .iter()
                    .all(|complaint| !complaint.right.is_empty()));
                complained += 1;
            }
        }
    }
    assert!(
        compiled > 500 && complained > 500,
        "{compiled} {complained}"
    );
}
