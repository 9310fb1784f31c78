//! `spwd-show`: whole pages, for accepted, refused and damaged plans.

mod common;

use common::{bytes, expected, plans, run, SHOW};

/// Shows a text form and compares the whole page; the status follows from its first word.
fn shows(plan: &str, stored: &str) {
    let ran = run(SHOW, &[plan], b"");
    assert_eq!(ran.text(), expected(stored), "{plan}");
    let status = if ran.text().starts_with("ACCEPTED ") {
        0
    } else {
        1
    };
    assert_eq!((ran.err.as_str(), ran.status), ("", status), "{plan}");
}

#[test]
fn plans_of_the_project() {
    for name in [
        "sample-first",
        "smallest",
        "astro-h",
        "figure-21-t3",
        "sample-over-63",
        "sample-first-clash",
        "figure-21-mixed",
        "sample-overrun",
        "figure-3-5-overrun",
        "juice",
        "sample-tag-6",
        "sample-intervals-twice",
        "sample-empty",
        "sample-intervals",
        "no-entry",
        "no-entry-times",
        "times",
        "times-never",
        "guide-reply",
        "reply-clash",
        "reply-without-path",
        "reply-from-initiator",
    ] {
        shows(&format!("plans/{name}.plan"), &format!("show/{name}.txt"));
    }
}

/// Spans over the ends of blocks and over slot 63, and plans for verdicts that the project's plans do not get, or get in one way alone.
#[test]
fn plans_of_these_tests() {
    for plan in plans("rust/desk/tests/plans") {
        let name = plan.rsplit('/').next().unwrap().trim_end_matches(".plan");
        if name != "complaints" {
            shows(&plan, &format!("show/{name}.txt"));
        }
    }
}

/// Targets that the slot times never permit, in several entries and by several spans.
#[test]
fn never_permitted() {
    let text = std::fs::read_to_string(common::root().join("plans/eight.plan")).unwrap();
    for (slot_length, stored) in [
        (20_000, "show/never-eight.txt"),
        (1_000, "show/never-all.txt"),
    ] {
        let text = format!("{text}times 100 5000 5000 5000 5000 {slot_length}\n");
        let ran = run(SHOW, &["--text"], text.as_bytes());
        let (_, never) = ran.text().split_once("in slot 0\n").unwrap();
        assert_eq!(never, expected(stored));
        assert!(ran.text().lines().all(|line| line.len() <= 80));
        assert_eq!((ran.err.as_str(), ran.status), ("", 0));
    }
}

/// Initiators 0 and 1 on router 50, each with sixteen targets on router 51, to which its commands go over link 50. The replies to 0 come home
/// over link 51.
fn two_fans() -> String {
    let mut text = String::new();
    (0..34).for_each(|node| text += &format!("node {node}\n"));
    text += "router 50\nrouter 51\nlink 50 50 51\nlink 51 50 51\n";
    (0..2).for_each(|node| text += &format!("link {node} {node} 50\n"));
    (2..34).for_each(|node| text += &format!("link {node} {node} 51\n"));
    let targets = |initiator: u8| 2 + 16 * initiator..18 + 16 * initiator;
    for initiator in 0..2 {
        for target in targets(initiator) {
            text += &format!("path {initiator} {target} {initiator} 50 {target}\n");
        }
    }
    for initiator in 0..2 {
        let targets: Vec<_> = targets(initiator)
            .map(|target| target.to_string())
            .collect();
        text += &format!("entry {initiator} 0 1 {}\n", targets.join(" "));
    }
    text += "intervals 90 110\n";
    targets(0).for_each(|target| text += &format!("reply 0 {target} {target} 51 0\n"));
    text
}

/// Who meets on a link is wrapped.
#[test]
fn many_ways_over_a_link() {
    let ran = run(SHOW, &["--text"], two_fans().as_bytes());
    let page = ran.text();
    assert!(page.starts_with("REFUSED 14 0 0 1 50\n"), "{page}");
    let (_, who) = page.split_once("using it\n  link 50: ").unwrap();
    let (who, _) = who.split_once("\n  entry of initiator 0").unwrap();
    assert!(who.lines().all(|line| line.len() <= 80), "{who}");
    let words: Vec<_> = who.split_ascii_whitespace().collect();
    let commands = (2..18).map(|target| format!("the command of 0 to {target}, "));
    let both = (18..34).map(|target| format!("the command and the reply of 1 to {target}, "));
    let all: String = commands.chain(both).collect();
    assert_eq!(format!("{}, ", words.join(" ")), all);
    assert_eq!(page.matches(", command: 0 -0- 50 =50= 51 ").count(), 16);
    assert_eq!(page.matches(": 1 -1- 50 =50= 51 ").count(), 16);
    assert!(!page.contains(", reply: "), "{page}");
}

/// From a plan file the page is that from the text, but for the lines of the text.
#[test]
fn from_bytes() {
    for name in [
        "sample-first",
        "sample-over-63",
        "juice",
        "guide-reply",
        "reply-clash",
        "reply-from-initiator",
    ] {
        let plan = format!("plans/{name}.plan");
        let ran = run(SHOW, &[], &bytes(&plan));
        let page = expected(&format!("show/{name}.txt"));
        let listed = ["  9: ", "  11: ", "  slots "];
        let listed = |line: &&str| listed.iter().any(|start| line.starts_with(start));
        let (places, lines): (Vec<_>, Vec<_>) = ran.text().lines().partition(listed);
        let (lines_of_text, others): (Vec<_>, Vec<_>) = page
            .lines()
            .filter(|line| listed(line) || !line.contains(&format!("{plan}:")))
            .partition(listed);
        assert_eq!(lines, others, "{plan}");
        assert_eq!(places.len(), lines_of_text.len(), "{plan}");
        let offsets = |line: &&str| line.contains(": offset ") || line.contains("(offset ");
        assert!(places.iter().all(offsets), "{places:?}");
        assert_eq!(ran.err, "", "{plan}");
    }
}

/// Where entries belong is an offset then.
#[test]
fn no_entry_from_bytes() {
    for (name, timing) in [
        ("no-entry", 90),
        ("no-entry-times", 90),
        ("sample-intervals", 0),
    ] {
        let ran = run(SHOW, &[], &bytes(&format!("plans/{name}.plan")));
        let page = expected(&format!("show/{name}.txt"));
        let (page, _) = page.split_once(" at line ").unwrap();
        assert_eq!(ran.text(), format!("{page} at offset {timing}\n"));
        assert_eq!((ran.err.as_str(), ran.status), ("", 1));
    }
}

/// The one initiator of a star with all other nodes as its targets.
#[test]
fn no_entry_and_many_targets() {
    let mut text = String::new();
    (0..63).for_each(|node| text += &format!("node {node}\n"));
    text += "router 63\n";
    (0..63).for_each(|node| text += &format!("link {node} {node} 63\n"));
    (1..63).for_each(|target| text += &format!("path 0 {target} 0 {target}\n"));
    text += "intervals 90 110\n";
    let ran = run(SHOW, &["--text"], text.as_bytes());
    assert_eq!(ran.text(), expected("show/no-entry-star.txt"));
    assert_eq!((ran.err.as_str(), ran.status), ("", 1));
}

#[test]
fn cut_off() {
    let file = &bytes("plans/sample-first.plan")[..100];
    let ran = run(SHOW, &["-"], file);
    assert_eq!(ran.text(), expected("show/cut-off.txt"));
    assert_eq!((ran.err.as_str(), ran.status), ("", 1));
}

#[test]
fn one_byte_changed() {
    let mut file = bytes("plans/sample-first.plan");
    // The length of the first link.
    file[32] ^= 0x40;
    let ran = run(SHOW, &["-"], &file);
    assert_eq!(ran.text(), expected("show/one-byte-changed.txt"));
    assert_eq!((ran.err.as_str(), ran.status), ("", 1));
}

#[test]
fn too_long() {
    let mut file = bytes("plans/sample-first.plan");
    file.resize(16_385, 0);
    let ran = run(SHOW, &["-"], &file);
    assert_eq!(ran.text(), expected("show/too-long.txt"));
    assert_eq!((ran.err.as_str(), ran.status), ("", 1));
}

/// `--text` and `--bytes` are stronger than the name.
#[test]
fn forms() {
    let text = std::fs::read(common::root().join("plans/sample-first.plan")).unwrap();
    let page = expected("show/sample-first.txt");
    assert_eq!(run(SHOW, &["--text"], &text).text(), page);
    assert_eq!(run(SHOW, &["--text", "-"], &text).text(), page);
    let ran = run(SHOW, &["--bytes", "plans/sample-first.plan"], b"");
    assert!(ran.text().starts_with("REFUSED 2 0\n"), "{}", ran.text());
    assert_eq!(ran.status, 1);
    let ran = run(SHOW, &["--text"], &bytes("plans/sample-intervals.plan"));
    assert_eq!((ran.text(), ran.status), ("", 2));
    let said = "standard input: this looks like a plan file and is no text: ";
    assert!(ran.err.starts_with(said), "{}", ran.err);
}

/// No line of a page of an accepted plan is wider than 80 columns.
#[test]
fn width() {
    for plan in plans("plans") {
        let ran = run(SHOW, &[&plan], b"");
        if ran.status == 0 {
            let widest = ran.text().lines().map(str::len).max();
            assert!(widest <= Some(80), "{plan}: {widest:?}");
        }
    }
}
