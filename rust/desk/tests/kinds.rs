//! What a file is, by its content; and what each program does with one that it is not for.

mod common;

use common::{bytes, expected, plans, root, run, COMPILE, COUNTER, SHEET, SHOW};
use desk::fingerprint::fingerprint;
use desk::form::compile;
use desk::judge::judge;
use desk::kind::{kind, Kind};
use desk::script::{line_of, Line};
use spwd::{Spwd, IMAGE_SIZE};
use std::fs;
use std::process::Command;

fn text(plan: &str) -> Vec<u8> {
    fs::read(root().join(plan)).unwrap()
}

fn hex(bytes: &[u8]) -> String {
    bytes.iter().map(|byte| format!("{byte:02x}")).collect()
}

fn under(plan: &str) -> Spwd {
    let mut spwd = Spwd::new();
    spwd.load(&bytes(plan)).unwrap();
    spwd
}

/// Every word that begins an item or a command makes a text or a script known, alone in it too.
#[test]
fn by_first_words() {
    let complaints = compile(b"what").unwrap_err();
    let (_, words) = complaints[0].right[0].split_once("one of: ").unwrap();
    for word in words.split(", ") {
        assert_eq!(kind(word.as_bytes()), Kind::Text, "{word}");
    }
    let script = fs::read_to_string(root().join("rust/desk/tests/scripts/everything.txt")).unwrap();
    for line in script.lines() {
        if let Line::Command(_) = line_of(line.as_bytes()) {
            let first = line.split(' ').next().unwrap();
            assert_eq!(kind(first.as_bytes()), Kind::Script, "{line}");
        }
    }
}

#[test]
fn by_content() {
    for plan in [plans("plans"), plans("rust/desk/tests/plans")].concat() {
        assert_eq!(kind(&text(&plan)), Kind::Text, "{plan}");
    }
    for plan in plans("plans") {
        let file = bytes(&plan);
        let right = match &plan[..] {
            "plans/sample-empty.plan" => Kind::Empty,
            "plans/sample-tag-6.plan" => Kind::Other,
            _ => Kind::Plan,
        };
        assert_eq!(kind(&file), right, "{plan}");
        if right == Kind::Plan {
            assert_eq!(kind(hex(&file).as_bytes()), Kind::Hex, "{plan}");
            let cut = kind(&file[..file.len() - 1]);
            let alone = desk::fields::fields(&file).len() == 1;
            assert_eq!(cut == Kind::Plan, !alone, "{plan}");
        }
        let judged = judge(&file);
        if judged.verdict.is_accepted() {
            assert_eq!(kind(judged.desk.image().bytes()), Kind::Image, "{plan}");
        }
    }
    for script in ["everything", "samples", "times", "replies", "turns"] {
        let script = format!("rust/desk/tests/scripts/{script}.txt");
        assert_eq!(kind(&text(&script)), Kind::Script, "{script}");
    }
    for (bytes, right) in [
        (&b""[..], Kind::Empty),
        (b"\n \n", Kind::Text),
        (b"# only a comment\n", Kind::Text),
        (b"\xef\xbb\xbfnode 1\r\n", Kind::Text),
        (b"nod 1\nnode 2\n", Kind::Text),
        (b"\tentry 1\n", Kind::Text),
        ("# 計画計画計画計画\nnode 1\n".as_bytes(), Kind::Text),
        (b"node 1 # Instrument f\xfcr J\xe4ger\n", Kind::Text),
        (b"load -\nnode 1\nclear\n", Kind::Script),
        (b"\xff\xfen\0o\0d\0e\0", Kind::Wide),
        (b"\xfe\xff\0n\0o", Kind::Wide),
        (b"01 00 02 01 00\n", Kind::Hex),
        (b"0100020100\n", Kind::Hex),
        (b"01000201000\n", Kind::Words),
        (b"1234\n", Kind::Words),
        (b"hello\n", Kind::Words),
        (b"\x01\x00\x02\x01\x00", Kind::Plan),
        (b"\x01\x00\x02\x01", Kind::Other),
        (b"\x7fELF", Kind::Other),
        (&[0; IMAGE_SIZE], Kind::Image),
        (&[0xff; IMAGE_SIZE], Kind::Image),
        (&[0; IMAGE_SIZE - 1], Kind::Other),
    ] {
        assert_eq!(kind(bytes), right, "{:?}", &bytes[..bytes.len().min(20)]);
    }
}

/// An image may begin as a plan file does, and a plan file may be as long as an image.
#[test]
fn an_image_that_looks_like_a_plan() {
    let mut image = [0; IMAGE_SIZE];
    image[..5].copy_from_slice(&[1, 0, 2, 1, 0]);
    assert_eq!(kind(&image), Kind::Image);
    let mut file = Vec::new();
    while file.len() + 10 <= IMAGE_SIZE {
        file.extend([1, 0, 2, 1, 0]);
    }
    file.extend([2, 0, 3, 1, 1, 1]);
    assert_eq!((file.len(), kind(&file)), (IMAGE_SIZE, Kind::Plan));
}

/// A text is taken as text whatever its name, and a plan file as one; both with a word about it.
#[test]
fn taken_for_what_it_is() {
    let show = expected("show/sample-first.txt");
    let sheet = expected("sheet/times.txt");
    let folder = env!("CARGO_TARGET_TMPDIR");
    for (program, name, plan, page) in [
        (SHOW, "spwd-show", "plans/sample-first.plan", &show),
        (SHEET, "spwd-sheet", "plans/times.plan", &sheet),
    ] {
        let as_text = "taken as a plan in text; --bytes takes it as a plan file";
        let as_file = "taken as a plan file; --text takes it as text";
        let ran = run(program, &[], &text(plan));
        let said = format!("{name}: standard input: {as_text}\n");
        assert_eq!(
            (ran.text(), &ran.err[..], ran.status),
            (&page[..], &said[..], 0)
        );
        let file = format!("{folder}/{name}.txt");
        fs::write(&file, text(plan)).unwrap();
        let ran = run(program, &[&file], b"");
        let said = format!("{name}: {file}: {as_text}\n");
        assert_eq!(
            (ran.text(), &ran.err[..], ran.status),
            (&page[..], &said[..], 0)
        );
        let file = format!("{folder}/{name}-bytes.plan");
        fs::write(&file, bytes(plan)).unwrap();
        let ran = run(program, &[&file], b"");
        let said = format!("{name}: {file}: {as_file}\n");
        assert_eq!(
            (ran.text(), &ran.err[..], ran.status),
            (&page[..], &said[..], 0)
        );
    }
}

const TEXT: &str = "this looks like a plan in text: spwd-compile makes a plan file of it, and --text takes it as it is";
const HEX: &str = "this looks like a plan file in hex; a plan file makes of it: sed 's/ //g; s/../ &/g; s/^/bytes/' FILE | spwd-compile -";
const SCRIPT: &str = "this looks like a script: spwd-panel plays it";
const IMAGE: &str =
    "this looks like an image of a box, 15656 bytes: spwd-counter says what is in it";
const EMPTY: &str = "there is nothing in it";
const WIDE: &str = "this looks like text in UTF-16: save it as plain text (UTF-8 or ASCII)";
const WORDS: &str = "this is text, but no line of it begins an item of a plan";
const FILE: &str =
    "this looks like a plan file and is no text: spwd-compile --text makes text of it, and spwd-show --bytes shows it";

/// Behind the card's words for a refusal stands what the file looks like.
#[test]
fn no_plan_file() {
    let image = *under("plans/guide.plan").image().bytes();
    let digits = hex(&bytes("plans/guide.plan"));
    for (words, input, hint) in [
        (&["--bytes"][..], &text("plans/guide.plan")[..], TEXT),
        (&["--bytes"], digits.as_bytes(), HEX),
        (&[], digits.as_bytes(), HEX),
        (&[], b"load -\nclear\n", SCRIPT),
        (&[], &image, IMAGE),
        (&[], b"", EMPTY),
        (&[], b"\xff\xfen\0", WIDE),
        (&[], b"Dear team,\n", WORDS),
    ] {
        for program in [SHOW, SHEET] {
            let ran = run(program, words, input);
            let mut lines = ran.text().lines();
            assert!(lines.next().unwrap().starts_with("REFUSED "), "{hint}");
            let advice = lines.position(|line| line.starts_with("    to do: "));
            assert!(advice.is_some(), "{hint}");
            assert_eq!(lines.next(), Some(&format!("    {hint}")[..]));
            assert_eq!((ran.err.as_str(), ran.status), ("", 1), "{hint}");
        }
    }
    // Of what is nothing known there is no hint.
    let ran = run(SHOW, &[], b"\x7fELF");
    assert!(!ran.text().contains("looks like"), "{}", ran.text());
}

/// Where text is wanted, behind the complaints.
#[test]
fn no_text() {
    let file = bytes("plans/guide.plan");
    let image = *under("plans/guide.plan").image().bytes();
    let digits = hex(&file);
    for (input, hint) in [
        (&file[..], FILE),
        (digits.as_bytes(), HEX),
        (b"load -\nclear\n", SCRIPT),
        (&image, IMAGE),
        (b"\xff\xfen\0", WIDE),
        (b"Dear team,\n", WORDS),
    ] {
        for (program, words) in [(COMPILE, "-"), (SHOW, "--text"), (SHEET, "--text")] {
            let ran = run(program, &[words], input);
            let said = format!("standard input: {hint}\n");
            if [SCRIPT, WORDS].contains(&hint) {
                assert!(ran.err.ends_with(&format!("\n{said}")), "{}", ran.err);
            } else {
                assert_eq!(ran.err, said);
            }
            assert_eq!((ran.text(), ran.status), ("", 2), "{hint}");
        }
    }
    // Text that only has lines that are no item is not said to be anything else.
    let ran = run(COMPILE, &["-"], b"node\n");
    assert!(!ran.err.contains("this"), "{}", ran.err);
}

/// What the hint about hex says to do makes a plan file, from one line of digits and from lines with blanks.
#[test]
fn bytes_of_hex() {
    let file = bytes("plans/guide.plan");
    let (_, line) = HEX.split_once("of it: ").unwrap();
    let path = format!("{}/guide.hex", env!("CARGO_TARGET_TMPDIR"));
    let line = line.replace("FILE", &path).replace("spwd-compile", COMPILE);
    let rows = file.chunks(16).map(|row| {
        let row: Vec<_> = row.iter().map(|byte| format!("{byte:02x}")).collect();
        row.join(" ") + "\n"
    });
    for digits in [hex(&file) + "\n", rows.collect()] {
        fs::write(&path, digits).unwrap();
        let output = Command::new("bash").args(["-c", &line]).output().unwrap();
        assert_eq!(output.stdout, file);
    }
}

/// `--text` makes text of any bytes, but of text that is hardly what was meant.
#[test]
fn text_of_text() {
    let ran = run(COMPILE, &["--text", "-"], b"node 1\n");
    assert!(
        ran.text().ends_with("bytes 6e 6f 64 65 20 31 0a\n"),
        "{}",
        ran.text()
    );
    let said = "standard input: this looks like a plan in text already: without --text a plan file is made of it\n";
    assert_eq!((ran.err.as_str(), ran.status), (said, 0));
}

/// The canonical file: what a box writes out, from text and from a plan file in any order, in bytes and in hex.
#[test]
fn canonical() {
    for plan in plans("plans") {
        let (file, judged) = (bytes(&plan), judge(&bytes(&plan)));
        let ran = run(COMPILE, &["--canonical", &plan], b"");
        if !judged.verdict.is_accepted() {
            let end = "\nnothing is written: a plan that is refused has no canonical file\n";
            assert!(ran.err.ends_with(end), "{}", ran.err);
            assert_eq!((ran.text(), ran.status), ("", 1), "{plan}");
            let forced = run(COMPILE, &["--canonical", "--force", &plan], b"");
            assert_eq!(forced, ran, "{plan}");
            continue;
        }
        assert_eq!((&ran.out, ran.status), (&judged.held, 0), "{plan}");
        let end = format!(", fingerprint {}\n", fingerprint(&judged.held));
        assert!(ran.err.starts_with(&format!("{plan}: ACCEPTED ")) && ran.err.ends_with(&end));
        let from_file = run(COMPILE, &["--canonical", "-"], &file);
        assert_eq!(
            (from_file.out, from_file.status),
            (judged.held.clone(), 0),
            "{plan}"
        );
        let in_hex = run(COMPILE, &["--hex", "--canonical", &plan], b"");
        assert_eq!(in_hex.text(), format!("{}\n", hex(&judged.held)), "{plan}");
    }
    let turned = b"node 2\nnode 1\nlink 0 2 1\npath 1 2 0\nentry 1 0 1 2\nintervals 90 110\n";
    let ran = run(COMPILE, &["--canonical", "-"], turned);
    assert_eq!(ran.out, bytes("plans/smallest.plan"));
    let plain = run(COMPILE, &["-"], turned);
    assert_eq!((plain.err, plain.out == ran.out), (ran.err, false));
}

/// An image where a plan is wanted, and the other way round.
#[test]
fn exchanged() {
    let path = format!("{}/exchanged.img", env!("CARGO_TARGET_TMPDIR"));
    fs::write(&path, under("plans/guide.plan").image().bytes()).unwrap();
    let ran = run(COUNTER, &["holds", "plans/guide.plan", &path], b"");
    let said = format!(
        "spwd-counter: plans/guide.plan: {} bytes, and an image of a box has 15656, so it is cut off; this looks like a plan in text\n",
        text("plans/guide.plan").len()
    );
    assert_eq!((ran.text(), &ran.err[..], ran.status), ("", &said[..], 3));
}
