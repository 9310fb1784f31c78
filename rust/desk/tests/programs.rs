//! What the programs have in common: help, wrong words, files that cannot be read, readers that go away, streams that are closed.

mod common;

use common::{root, run, COMPILE, COUNTER, PANEL, SHEET, SHOW};
use std::fs::File;
use std::io::Write;
use std::path::Path;
use std::process::{Command, Stdio};

const PROGRAMS: [(&str, &str); 4] = [
    ("spwd-compile", COMPILE),
    ("spwd-show", SHOW),
    ("spwd-sheet", SHEET),
    ("spwd-panel", PANEL),
];

/// These, and the one whose words are others.
fn all() -> Vec<(&'static str, &'static str)> {
    [&PROGRAMS[..], &[("spwd-counter", COUNTER)]].concat()
}

#[test]
fn help() {
    for (name, program) in all() {
        let ran = run(program, &["--help"], b"");
        assert!(ran.text().starts_with(&format!("{name} ")), "{name}");
        assert!(ran.text().contains("\nStatus: 0 "), "{name}");
        assert!(ran.text().contains(" this, as -h; --version "), "{name}");
        assert_eq!((ran.err.as_str(), ran.status), ("", 0), "{name}");
        assert_eq!(run(program, &["-h"], b""), ran, "{name}");
        let widest = ran.text().lines().map(|line| line.chars().count()).max();
        assert!(widest <= Some(120), "{name}: {widest:?}");
    }
}

#[test]
fn version() {
    for (name, program) in all() {
        let ran = run(program, &["--version"], b"");
        let said = format!("{name} 0.1.0, interface version {}\n", spwd::VERSION);
        assert_eq!((ran.text(), &ran.err[..], ran.status), (&said[..], "", 0));
    }
}

/// What a command line ends with, and what it says on standard error.
fn bash(line: &str, programs: &str) -> (String, Option<i32>) {
    let output = Command::new("bash")
        .args(["-c", line])
        .env("PATH", format!("{programs}:/usr/bin:/bin"))
        .current_dir(root())
        .output()
        .unwrap();
    assert_eq!(output.stdout, b"", "{line}");
    (
        String::from_utf8(output.stderr).unwrap(),
        output.status.code(),
    )
}

/// A standard stream that is closed is an error where it is needed; /dev/null, as a shell opens it, is none.
#[test]
fn closed_streams() {
    let programs = Path::new(COMPILE).parent().unwrap().display().to_string();
    let image = format!("{}/closed.img", env!("CARGO_TARGET_TMPDIR"));
    std::fs::write(&image, spwd::Spwd::new().image().bytes()).unwrap();
    let closed = "is closed (or /dev/null, opened for both reading and writing)";
    for (name, words) in [
        ("spwd-compile", "plans/guide.plan".to_string()),
        ("spwd-compile", "--text plans/guide.plan".to_string()),
        ("spwd-show", "plans/guide.plan".to_string()),
        ("spwd-sheet", "plans/times.plan".to_string()),
        ("spwd-panel", "docs/guide.script".to_string()),
        ("spwd-counter", format!("blank {image}")),
        ("spwd-show", "--help".to_string()),
        ("spwd-show", "--version".to_string()),
    ] {
        let said = format!("{name}: standard output {closed}\n");
        let closed = bash(&format!("{name} {words} >&-"), &programs);
        assert_eq!(closed, (said, Some(3)), "{words}");
        let (said, status) = bash(&format!("{name} {words} >/dev/null"), &programs);
        assert!(!said.contains("closed"), "{said}");
        assert_eq!(status, Some(0), "{words}");
        // Nobody is there to be told, and all the rest is as always.
        let quiet = bash(&format!("{name} {words} >/dev/null 2>&-"), &programs);
        assert_eq!(quiet, (String::new(), Some(0)), "{words}");
        let status = bash(&format!("{name} {words} >&- 2>&-"), &programs).1;
        assert_eq!(status, Some(3), "{words}");
    }
    for (name, words) in [
        ("spwd-compile", "-"),
        ("spwd-show", ""),
        ("spwd-show", "--text -"),
        ("spwd-sheet", ""),
        ("spwd-panel", ""),
        ("spwd-counter", "blank -"),
    ] {
        let said = format!("{name}: standard input {closed}\n");
        let line = format!("{name} {words} <&- >/dev/null");
        assert_eq!(bash(&line, &programs), (said, Some(3)), "{line}");
        let line = format!("{name} {words} </dev/null >/dev/null");
        let (said, _) = bash(&line, &programs);
        assert!(!said.contains("closed"), "{line}: {said}");
    }
    // Input that is not needed may be closed.
    let line = "spwd-show plans/guide.plan <&- >/dev/null";
    assert_eq!(bash(line, &programs), (String::new(), Some(0)));
}

fn refused(program: &str, words: &[&str], said: &str) {
    let ran = run(program, words, b"");
    assert_eq!(
        (ran.text(), ran.err.as_str(), ran.status),
        ("", said, 3),
        "{words:?}"
    );
}

#[test]
fn wrong_words() {
    for (name, program) in PROGRAMS {
        refused(
            program,
            &["--what"],
            &format!("{name}: there is no option --what; see {name} --help\n"),
        );
        refused(
            program,
            &["-t", "a"],
            &format!("{name}: there is no option -t; see {name} --help\n"),
        );
        refused(
            program,
            &["a", "b"],
            &format!("{name}: one file at a time, and b is one more; see {name} --help\n"),
        );
        let missing = format!("{name}: no-such-file: No such file or directory (os error 2)\n");
        refused(program, &["no-such-file"], &missing);
        refused(
            program,
            &["--", "--help"],
            &missing.replace("no-such-file", "--help"),
        );
        refused(
            program,
            &["plans"],
            &format!("{name}: plans: Is a directory (os error 21)\n"),
        );
    }
}

#[test]
fn words_that_do_not_go_together() {
    refused(
        COMPILE,
        &["--hex", "--text", "a"],
        "spwd-compile: --text goes with no other option; see spwd-compile --help\n",
    );
    refused(
        COMPILE,
        &[],
        "spwd-compile: a file is missing; see spwd-compile --help\n",
    );
    refused(
        SHOW,
        &["--text", "--bytes"],
        "spwd-show: --text and --bytes exclude each other; see spwd-show --help\n",
    );
    let next = ["--next", "1", "20", "40"];
    for (words, said) in [
        (&[&next[..], &next][..], "--next stands twice"),
        (
            &[&next[..3]],
            "behind --next stand 2 words and should stand 3",
        ),
        (
            &[&next[..3], &["plans/guide.plan"]],
            "'plans/guide.plan' is no number; right is a number in decimal digits, 0 to 65535",
        ),
        (
            &[&["--next", "256", "20", "40"]],
            "256 is too great; right is a number from 0 to 255",
        ),
        (
            &[&["--next", "1", "-1", "40"]],
            "'-1' is no number; right is a number in decimal digits, 0 to 255",
        ),
        (
            &[&["--next", "1", "20", "65536"]],
            "65536 is too great; right is a number from 0 to 65535",
        ),
        (
            &[&next, &["256", "plans/guide.plan"]],
            "256 is too great; right is a number from 0 to 255",
        ),
        (
            &[&["plans/guide.plan"], &next, &["5x"]],
            "one file at a time, and neither plans/guide.plan nor 5x is a slot in decimal digits",
        ),
        (&[&next, &["-1"]], "there is no option -1"),
        (
            &[&next, &["5", "a", "b"]],
            "one file at a time, and b is one more",
        ),
        (
            &[&next, &["a", "b", "c"]],
            "one file at a time, and b is one more",
        ),
        (
            &[&next, &["--text", "--bytes"]],
            "--text and --bytes exclude each other",
        ),
    ] {
        let said = format!("spwd-show: {said}; see spwd-show --help\n");
        refused(SHOW, &words.concat(), &said);
    }
    refused(
        SHOW,
        &[&next[..], &["5", "no-such-file"]].concat(),
        "spwd-show: no-such-file: No such file or directory (os error 2)\n",
    );
    refused(
        SHOW,
        &[&next[..], &[""]].concat(),
        "spwd-show: : No such file or directory (os error 2)\n",
    );
    let alone = ["--routers", "1", "--rate", "200"];
    let reply = ["--reply-routers", "2"];
    let latencies = ["--latencies", "0", "0", "0", "0"];
    let times = ["--times", "200", "0", "0", "0", "0", "0"];
    for (words, said) in [
        (
            &[&["--text", "--bytes"][..]][..],
            "--text and --bytes exclude each other",
        ),
        (&[&times, &times], "--times stands twice"),
        (
            &[&times[..6]],
            "behind --times stand 5 words and should stand 6",
        ),
        (
            &[&["--routers"]],
            "behind --routers stand 0 words and should stand 1",
        ),
        (&[&alone], "--routers, --rate and --latencies go together"),
        (
            &[&reply, &["plans/guide.plan"]],
            "--reply-routers goes with --routers",
        ),
        (
            &[&reply, &alone[2..], &latencies, &["0"]],
            "--reply-routers goes with --routers",
        ),
        (
            &[&alone, &reply],
            "--routers, --rate and --latencies go together",
        ),
        (
            &[&alone, &reply, &reply, &latencies, &["0"]],
            "--reply-routers stands twice",
        ),
        (
            &[&alone, &latencies, &["--reply-routers", "256", "0"]],
            "256 is too great; right is a number from 0 to 255",
        ),
        (
            &[&latencies, &["0"]],
            "--routers, --rate and --latencies go together",
        ),
        (&[&alone, &latencies], "a length is missing"),
        (
            &[&alone, &latencies, &times, &["0"]],
            "--routers, --rate and --latencies go with no plan and none of its options",
        ),
        (
            &[&alone, &latencies, &["--text", "0"]],
            "--routers, --rate and --latencies go with no plan and none of its options",
        ),
        (
            &[&alone, &latencies, &["0", "1x"]],
            "'1x' is no number; right is a number in decimal digits, 0 to 65535",
        ),
        (
            &[&alone, &latencies, &["65536"]],
            "65536 is too great; right is a number from 0 to 65535",
        ),
        (
            &[&alone[2..], &["--routers", "256"], &latencies, &["0"]],
            "256 is too great; right is a number from 0 to 255",
        ),
        (
            &[&alone[..2], &["--rate", "65536"], &latencies, &["0"]],
            "65536 is too great; right is a number from 0 to 65535",
        ),
        (
            &[&alone, &latencies[..4], &["4294967296", "0"]],
            "4294967296 is too great; right is a number from 0 to 4294967295",
        ),
        (
            &[&["--times", "x", "0", "0", "0", "0", "-1"]],
            "'x' is no number; right is a number in decimal digits, 2 to 400; \
             '-1' is no number; right is a number in decimal digits, 0 to 1000000",
        ),
    ] {
        let said = format!("spwd-sheet: {said}; see spwd-sheet --help\n");
        refused(SHEET, &words.concat(), &said);
    }
}

#[test]
fn too_much_to_be_a_plan() {
    let ran = run(COMPILE, &["--text", "-"], &vec![0; (1 << 20) + 1]);
    assert_eq!(
        ran.err,
        "spwd-compile: standard input: longer than 1048576 bytes: this is no plan\n"
    );
    assert_eq!((ran.text(), ran.status), ("", 3));
}

/// Nobody reads standard output: the program ends without a word, with the status that it would have had.
#[test]
fn a_closed_pipe() {
    let script = "clear\n".repeat(100_000);
    let plan = std::fs::read(root().join("plans/astro-h.plan")).unwrap();
    for (program, words, input) in [
        (COMPILE, &["--text", "-"][..], vec![7; 1 << 20]),
        (COMPILE, &["plans/sample-first.plan"], Vec::new()),
        (SHOW, &["--text"], plan.clone()),
        (SHOW, &["--text", "--next", "1", "5", "0"], plan.clone()),
        (
            SHEET,
            &["--text", "--times", "200", "0", "0", "0", "0", "0"],
            plan,
        ),
        (PANEL, &[], script.into_bytes()),
    ] {
        let mut child = Command::new(program)
            .args(words)
            .current_dir(root())
            .stdin(Stdio::piped())
            .stdout(Stdio::piped())
            .stderr(Stdio::piped())
            .spawn()
            .unwrap();
        drop(child.stdout.take());
        let mut stdin = child.stdin.take().unwrap();
        // The program may stop reading.
        let _ = stdin.write_all(&input);
        drop(stdin);
        let output = child.wait_with_output().unwrap();
        let err = String::from_utf8(output.stderr).unwrap();
        assert!(!err.contains("panic"), "{err}");
        assert_eq!(output.status.code(), Some(0), "{words:?}: {err}");
    }
}

/// A full disk is said, and neither it nor a standard error that is full makes a panic.
#[test]
fn a_full_disk() {
    let full = || Stdio::from(File::options().write(true).open("/dev/full").unwrap());
    let image = format!("{}/full.img", env!("CARGO_TARGET_TMPDIR"));
    std::fs::write(&image, spwd::Spwd::new().image().bytes()).unwrap();
    let blank = format!("blank {image}");
    for (name, program, words) in [
        ("spwd-compile", COMPILE, "plans/sample-first.plan"),
        ("spwd-show", SHOW, "plans/sample-first.plan"),
        ("spwd-sheet", SHEET, "plans/times.plan"),
        ("spwd-panel", PANEL, "rust/desk/tests/scripts/samples.txt"),
        ("spwd-counter", COUNTER, &blank),
    ] {
        let run = |err: Stdio| {
            let mut command = Command::new(program);
            let command = command.args(words.split(' ')).current_dir(root());
            command
                .stdout(full())
                .stderr(err)
                .spawn()
                .unwrap()
                .wait_with_output()
                .unwrap()
        };
        let output = run(Stdio::piped());
        let said = format!("{name}: standard output: No space left on device (os error 28)\n");
        assert_eq!(String::from_utf8(output.stderr).unwrap(), said);
        assert_eq!(output.status.code(), Some(3), "{name}");
        assert_eq!(run(full()).status.code(), Some(3), "{name}");
    }
}
