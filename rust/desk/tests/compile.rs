//! `spwd-compile`: the bytes of each item, the way back, complaints, verdicts with their lines.

mod common;

use common::{bytes, expected, plans, root, run, Chance, COMPILE};
use desk::form::compile;
use desk::script::{line_of, Command, Line};
use desk::text::text_of;
use std::fs;

fn verdict(plan: &str) -> Option<String> {
    let text = fs::read_to_string(root().join(plan)).unwrap();
    let line = text
        .lines()
        .find_map(|line| line.strip_prefix("# verdict: "));
    line.map(String::from)
}

/// A text and what it compiles to are the same bytes again.
fn round_trip(file: &[u8]) {
    let text = text_of(file).join("\n");
    let compiled =
        compile(text.as_bytes()).unwrap_or_else(|complaints| panic!("{text}\n{complaints:?}"));
    assert_eq!(compiled.bytes, file, "{text}");
}

#[test]
fn every_plan_with_its_verdict() {
    for plan in plans("plans") {
        let ran = run(COMPILE, &["--force", &plan], b"");
        assert_eq!(ran.out, bytes(&plan), "{plan}");
        let verdict = verdict(&plan).unwrap();
        let status = if verdict.starts_with("ACCEPTED") {
            0
        } else {
            1
        };
        assert_eq!(ran.status, status, "{plan}");
        let first = ran.err.lines().next().unwrap();
        assert!(first.starts_with(&format!("{plan}: {verdict}")), "{first}");
    }
}

#[test]
fn every_plan_and_back() {
    for plan in plans("plans") {
        let file = bytes(&plan);
        let text = run(COMPILE, &["--text", "-"], &file);
        assert_eq!((text.err.as_str(), text.status), ("", 0), "{plan}");
        let head = format!("# verdict: {}\n", verdict(&plan).unwrap());
        assert!(text.text().starts_with(&head), "{plan}");
        let forced = run(COMPILE, &["--force", "-"], &text.out);
        assert_eq!(forced.out, file, "{plan}");
    }
}

/// In hex as a script takes it, where the empty file is `-`.
#[test]
fn every_plan_in_hex() {
    for plan in plans("plans") {
        let hex = run(COMPILE, &["--force", "--hex", &plan], b"");
        let line = hex.text().strip_suffix('\n').unwrap();
        let load = line_of(format!("load {line}").as_bytes());
        assert_eq!(load, Line::Command(Command::Load(bytes(&plan))), "{plan}");
        let plain = run(COMPILE, &[&plan, "--force"], b"");
        assert_eq!((hex.err, hex.status), (plain.err, plain.status), "{plan}");
    }
}

/// Every item, with blanks, tabs, zeros in front, digits of both cases and comments: the bytes as document 01 has them.
#[test]
fn every_item() {
    let text = b"# only a comment\n\n   node   007#x\n\trouter\t255 # \xc3\xa4 \xff\nlink 0 1 000000000000000000002\n\
        path 1 2 3 4 5 6 7 8 9 10 11 12\nentry 1 64 0 9 9\nintervals 66051 4294967295\n\
        times 258 0 1 256 65536 4294967295\n reply 2  1 255\nreply 1 2 3 4 5 6 7 8 9 10 11 12\n\
        bytes 0a Fb FF 00\n   # end";
    let ran = run(COMPILE, &["--force", "-"], text);
    #[rustfmt::skip]
    let file = [
        1, 0, 2, 7, 0,
        1, 0, 2, 255, 1,
        2, 0, 3, 0, 1, 2,
        3, 0, 12, 1, 2, 3, 4, 5, 6, 7, 8, 9, 10, 11, 12,
        4, 0, 5, 1, 64, 0, 9, 9,
        5, 0, 8, 0, 1, 2, 3, 255, 255, 255, 255,
        6, 0, 22, 1, 2, 0, 0, 0, 0, 0, 0, 0, 1, 0, 0, 1, 0, 0, 1, 0, 0, 255, 255, 255, 255,
        7, 0, 3, 2, 1, 255,
        7, 0, 12, 1, 2, 3, 4, 5, 6, 7, 8, 9, 10, 11, 12,
        10, 251, 255, 0,
    ];
    assert_eq!(ran.out, file);
    assert_eq!(ran.status, 1);
    round_trip(&ran.out);
}

/// A field of more than 255 bytes, whose length has two.
#[test]
fn a_long_path() {
    let ran = run(
        COMPILE,
        &["--force", "-"],
        format!("path{}", " 9".repeat(258)).as_bytes(),
    );
    assert_eq!(ran.out, [&[3, 1, 2], &[9; 258][..]].concat());
    assert_eq!(ran.status, 1);
}

/// Lines that end as on Windows, and a byte order mark in front.
#[test]
fn lines_of_another_system() {
    let ran = run(
        COMPILE,
        &["-"],
        b"\xef\xbb\xbfnode 1\r\nnode 2\r\nlink 0 1 2\r\npath 1 2 0\r\nentry 1 0 1 2\r\nintervals 90 110\r\n",
    );
    #[rustfmt::skip]
    let file = [
        1, 0, 2, 1, 0,
        1, 0, 2, 2, 0,
        2, 0, 3, 0, 1, 2,
        3, 0, 3, 1, 2, 0,
        4, 0, 4, 1, 0, 1, 2,
        5, 0, 8, 0, 0, 0, 90, 0, 0, 0, 110,
    ];
    assert_eq!(ran.out, file);
    assert_eq!(ran.out, bytes("plans/smallest.plan"));
    assert_eq!(
        ran.err,
        "standard input: ACCEPTED 2 1 1 1: devices 2, links 1, paths 1, entries 1, fingerprint 991f4a0ca1f121e6\n"
    );
    assert_eq!(ran.status, 0);
}

#[test]
fn back_for_bytes_by_chance() {
    let mut chance = Chance(0x5eed_0001);
    for _ in 0..2_000 {
        let size = chance.below(200);
        round_trip(&(0..size).map(|_| chance.byte()).collect::<Vec<_>>());
    }
    round_trip(&(0..40_000).map(|_| chance.byte()).collect::<Vec<_>>());
}

/// Fields whose tags and lengths are right or nearly so.
#[test]
fn back_for_fields_by_chance() {
    let mut chance = Chance(0x5eed_0002);
    for _ in 0..2_000 {
        let mut file = Vec::new();
        for _ in 0..chance.below(20) {
            let length = chance.below(25);
            file.extend([chance.below(9) as u8, 0, length as u8]);
            file.extend((0..length).map(|_| chance.byte() >> chance.below(8)));
        }
        file.truncate(file.len().saturating_sub(chance.below(3)));
        round_trip(&file);
    }
}

#[test]
fn back_in_words() {
    #[rustfmt::skip]
    let file = [
        1, 0, 2, 7, 0,
        1, 0, 2, 8, 1,
        1, 0, 2, 9, 2,
        1, 0, 1, 7,
        3, 0, 2, 1, 2,
        8, 0, 0,
        5, 0, 8, 0, 0, 0, 90, 0, 0, 0, 110,
        6, 0, 0,
        6, 0, 22, 0, 200, 0, 0, 19, 136, 0, 0, 19, 136, 0, 0, 0, 0, 255, 255, 255, 255, 0, 0, 154, 26,
        7, 0, 3, 1, 2, 255,
        7, 0, 2, 1, 2,
        7, 0, 11, 1, 2, 3, 4, 5, 6, 7, 8, 9, 10, 11,
        5, 0,
    ];
    let ran = run(COMPILE, &["--text", "-"], &file);
    assert_eq!(ran.text(), expected("compile/back.txt"));
    assert_eq!((ran.err.as_str(), ran.status), ("", 0));
    assert_eq!(run(COMPILE, &["--force", "-"], &ran.out).out, file);
}

#[test]
fn complaints() {
    let ran = run(COMPILE, &["rust/desk/tests/plans/complaints.plan"], b"");
    assert_eq!(ran.err, expected("compile/complaints.txt"));
    assert_eq!((ran.text(), ran.status), ("", 2));
}

#[test]
fn twenty_complaints_and_how_many_more() {
    let ran = run(COMPILE, &["-"], "what\n".repeat(25).as_bytes());
    assert_eq!(ran.err.matches(": what\n").count(), 20);
    assert!(ran.err.contains("standard input:20: what\n"), "{}", ran.err);
    let end = "standard input: and 5 more lines that are no item\n\
               standard input: this is text, but no line of it begins an item of a plan\n";
    assert!(ran.err.ends_with(end), "{}", ran.err);
    assert_eq!((ran.text(), ran.status), ("", 2));
}

/// The box refuses: nothing is written but what is at fault, with its lines. Forced, the bytes are there too.
#[test]
fn refused_with_its_line() {
    for (plan, stored) in [
        ("plans/juice.plan", "compile/juice.txt"),
        ("plans/sample-overrun.plan", "compile/sample-overrun.txt"),
        (
            "plans/sample-first-clash.plan",
            "compile/sample-first-clash.txt",
        ),
        ("plans/sample-empty.plan", "compile/sample-empty.txt"),
        (
            "plans/sample-intervals.plan",
            "compile/sample-intervals.txt",
        ),
        ("plans/no-entry.plan", "compile/no-entry.txt"),
        ("plans/reply-clash.plan", "compile/reply-clash.txt"),
        (
            "plans/reply-without-path.plan",
            "compile/reply-without-path.txt",
        ),
        (
            "plans/reply-from-initiator.plan",
            "compile/reply-from-initiator.txt",
        ),
    ] {
        let ran = run(COMPILE, &[plan], b"");
        assert_eq!(ran.err, expected(stored), "{plan}");
        assert_eq!((ran.text(), ran.status), ("", 1), "{plan}");
        let forced = run(COMPILE, &["--force", plan], b"");
        let written = "written all the same, for --force\n";
        let (said, _) = ran.err.split_once("nothing is written; ").unwrap();
        assert_eq!(forced.err, format!("{said}{written}"), "{plan}");
        assert_eq!((forced.out, forced.status), (bytes(plan), 1), "{plan}");
    }
}

/// A field that begins in the middle of a line of bytes, or is made by two lines, is found by the line that made its tag.
#[test]
fn lines_of_bytes() {
    let text = "bytes 01 00 02 01 00 01 00\nbytes 02 01\nbytes 00\n";
    let ran = run(COMPILE, &["-"], text.as_bytes());
    assert!(
        ran.err.starts_with("standard input: REFUSED 7 5\n"),
        "{}",
        ran.err
    );
    assert!(
        ran.err
            .contains("    standard input:1: bytes 01 00 02 01 00 01 00\n"),
        "{}",
        ran.err
    );
    assert!(
        ran.err.contains("    device 1 was given at line 1\n"),
        "{}",
        ran.err
    );
    assert_eq!(ran.status, 1);
}
