//! Names of devices in a plan's text: what they are, where they are shown, and what is wrong with one.

mod common;

use common::{bytes, root, run, COMPILE, SHOW};
use desk::form::{compile, in_words};
use desk::names::{Names, NAME};
use desk::streams::Status;
use std::fs;

const SMALLEST: &str = "node 1\nnode 2\nlink 0 1 2\npath 1 2 0\nentry 1 0 1 2\nintervals 90 110\n";

fn names(text: &str) -> Names {
    let compiled = compile(text.as_bytes());
    compiled
        .unwrap_or_else(|complaints| panic!("{text}\n{complaints:?}"))
        .names
}

fn listed(names: &Names) -> Vec<(u8, &str)> {
    names.iter().collect()
}

/// What is said of a text with complaints, without the lines themselves.
fn wrong(text: &[u8]) -> Vec<String> {
    let complaints = compile(text).expect_err("complaints");
    let said = in_words("t", &complaints);
    said.into_iter()
        .filter(|line| line.starts_with("    ") || !line.starts_with("t:"))
        .collect()
}

/// Anywhere in the text, before its device too, and without a byte of the file.
#[test]
fn no_part_of_the_file() {
    let plain = bytes("plans/smallest.plan");
    for text in [
        format!("name 2 camera\n{SMALLEST}name 1 control processor\n"),
        SMALLEST.replace(
            "link",
            "name 1 control\t  processor   # twice\n\tname 2  camera\nlink",
        ),
    ] {
        let compiled = compile(text.as_bytes()).unwrap();
        assert_eq!(compiled.bytes, plain);
        let named = [(1, "control processor"), (2, "camera")];
        assert_eq!(listed(&compiled.names), named);
        assert_eq!(compiled.names.get(2), Some("camera"));
        assert_eq!(compiled.names.get(0), None);
    }
    assert_eq!(names(SMALLEST), Names::default());
}

/// Lines that make bytes are found behind lines of names.
#[test]
fn lines_behind_names() {
    let text = format!("name 2 a\nname 1 b\n{SMALLEST}");
    let compiled = compile(text.as_bytes()).unwrap();
    assert_eq!(compiled.line_at(0), Some((3, "node 1")));
    assert_eq!(compiled.line_at(5), Some((4, "node 2")));
    let last = compiled.bytes.len() - 1;
    assert_eq!(compiled.line_at(last), Some((8, "intervals 90 110")));
}

/// Letters of all scripts, marks of markup, digits; a device that lines of bytes give, and one that stands behind bytes of no field.
#[test]
fn characters_and_devices() {
    let text = "node 0\nname 0 Kamera <ä> & \"Ω\" 日本 e\u{301}\n";
    assert_eq!(names(text).get(0), Some("Kamera <ä> & \"Ω\" 日本 e\u{301}"));
    assert_eq!(
        names("bytes 01 00 02\nbytes 3f 01\nname 63 r").get(63),
        Some("r")
    );
    assert_eq!(names("bytes 01\nrouter 9\nname 9 7").get(9), Some("7"));
    let longest = "ä".repeat(NAME);
    let text = format!("node 0\nname 0 {longest}");
    assert_eq!(names(&text).get(0), Some(longest.as_str()));
}

#[test]
fn what_is_wrong_with_a_name() {
    let form = "name N WORDS (device N is called WORDS on pages; no part of the file)";
    for (line, said) in [
        (
            &b"name"[..],
            &format!("behind 'name' stand 0 words and should stand at least 2: {form}")[..],
        ),
        (
            b"name 1 # camera",
            &format!("behind 'name' stands 1 word and should stand at least 2: {form}"),
        ),
        (
            b"name camera 1",
            "'camera' is no number; right is a number in decimal digits, 0 to 63",
        ),
        (
            b"name 64 camera",
            "64 is too great; right is a number from 0 to 63",
        ),
        (
            b"name 1\xc2\xa0 camera",
            "'1\\u{a0}' is no number; right is a number in decimal digits, 0 to 63",
        ),
        (
            b"name 1 cam\xe2\x80\x8bera",
            "in this name stands \\u{200b}; right are characters that can be seen",
        ),
        (
            b"name 1 cam\x0cera",
            "in this name stands \\u{c}; right are characters that can be seen",
        ),
        (
            b"name 1 cam\xffera",
            "this name is no UTF-8; right are characters of UTF-8",
        ),
        (
            b"name 2 camera",
            "the text gives no device 2; right is the number of a node or a router of it",
        ),
        (
            b"name 1 a\nname 1 a",
            "device 1 has the name 'a' from line 2; right is one name for a device",
        ),
    ] {
        let text = [b"node 1\n", line].concat();
        assert_eq!(wrong(&text), [format!("    {said}")], "{said}");
    }
    let long = format!("node 1\nname 1 {}", "ab ".repeat(14));
    assert_eq!(
        wrong(long.as_bytes()),
        ["    this name has 41 characters; right are at most 40"]
    );
}

/// Two things wrong with a name; names without devices are said with other names, in order, but not where a line that is no item may have
/// given the device.
#[test]
fn several_complaints() {
    assert_eq!(
        wrong(b"name 70 \xc2\xad"),
        [
            "    70 is too great; right is a number from 0 to 63",
            "    in this name stands \\u{ad}; right are characters that can be seen"
        ]
    );
    let complaints = compile(b"name 9 a\nnode 1\nname 1 b\nname 1 c\nname 3 d").unwrap_err();
    let lines: Vec<_> = complaints
        .iter()
        .map(|complaint| (complaint.line, complaint.text.as_str()))
        .collect();
    assert_eq!(lines, [(1, "name 9 a"), (4, "name 1 c"), (5, "name 3 d")]);
    let complaints = compile(b"nodes 1\nname 1 b").unwrap_err();
    assert_eq!(complaints.len(), 1);
    assert_eq!(complaints[0].line, 1);
}

/// The page has the names below the devices, and is else the same; a plan file has none, nor has the way back.
#[test]
fn shown() {
    let text = fs::read_to_string(root().join("plans/guide.plan")).unwrap();
    let plain = run(SHOW, &["--text"], text.as_bytes());
    let named = format!("name 20 camera\n{text}\nname 1 control processor\n");
    let ran = run(SHOW, &["--text"], named.as_bytes());
    let block = "  routers: 10\nnames\n  1: control processor\n  20: camera\nlinks\n";
    assert_eq!(
        ran.text(),
        plain.text().replace("  routers: 10\nlinks\n", block)
    );
    assert_eq!((ran.err.as_str(), ran.status), ("", 0));
    let made = run(COMPILE, &["-"], named.as_bytes());
    assert_eq!(made.out, bytes("plans/guide.plan"));
    let back = run(COMPILE, &["--text", "-"], &made.out);
    assert!(!back.text().contains("name"), "{}", back.text());
}

#[test]
fn complaints_of_the_programs() {
    for (program, words) in [(COMPILE, &["-"][..]), (SHOW, &["--text"])] {
        let ran = run(program, words, b"name 1 camera\n");
        let said = "standard input:1: name 1 camera\n    the text gives no device 1; right is the number of a node or a router of it\n";
        let status = Status::Complaints as i32;
        assert_eq!((ran.text(), ran.err.as_str()), ("", said));
        assert_eq!(ran.status, status);
    }
}

#[test]
fn help_says_what_is_lost() {
    let ran = run(COMPILE, &["--help"], b"");
    assert!(ran.text().contains("\n    name N WORDS "), "{}", ran.text());
    assert!(ran.text().contains("names are lost"), "{}", ran.text());
}
