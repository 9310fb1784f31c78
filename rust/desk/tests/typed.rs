//! Lines of a script as people type them: blanks, files, and why a line is no command. What is a command is the same as for `replay`.

mod common;

use common::{bytes, root, run, Chance, PANEL};
use desk::panel::Panel;
use desk::script::{line_of, Command, Line};
use desk::streams::Status;
use desk::typed::{typed, Typed, Use};
use std::fs;

fn hex(plan: &str) -> String {
    let digits = bytes(plan);
    digits.iter().map(|byte| format!("{byte:02x}")).collect()
}

/// What a panel says of a script, and its status.
fn plays(script: &[u8]) -> (String, Status) {
    let mut panel = Panel::new(false);
    let lines = script.split(|&byte| byte == b'\n');
    let said = lines.flat_map(|line| panel.play(line));
    let said: String = said.map(|line| format!("{line}\n")).collect();
    (said, panel.status())
}

fn says(script: &str, said: &str) {
    let (out, _) = plays(script.as_bytes());
    assert_eq!(out, said, "{script}");
}

/// The last line that is said of a script.
fn last(script: &str) -> String {
    let (out, _) = plays(script.as_bytes());
    out.lines().last().unwrap_or_default().to_string()
}

/// Blanks of all kinds, in front, between and behind; lines that end as on Windows; a byte order mark.
#[test]
fn blanks() {
    let plain = Typed::Command(Command::TimeCode {
        byte: 1,
        clock: 2,
        room: 136,
    });
    for line in [
        "tc 1 2 136",
        "tc 1 2 136 ",
        "  tc  1   2 136",
        "\ttc\t1\t \t2 136\t",
        "tc 1 2 136\r",
        "tc 1 2 136 \r",
    ] {
        assert_eq!(typed(line.as_bytes()), plain, "{line:?}");
    }
    for line in ["", " ", "\t", "\r", "# x", "  # x", "\t#", "#\r"] {
        assert_eq!(typed(line.as_bytes()), Typed::Skip, "{line:?}");
    }
    says(
        "\u{feff}clear\r\n\r\n  clear \r\n# x\r\nclk\t7\r\n",
        "clear: there is no plan in the box\nclear: there is no plan in the box\nclock 7: refused 20: there is no plan in the box\n",
    );
    says(
        "\u{feff}# a comment\nclear",
        "clear: there is no plan in the box\n",
    );
    let second = "clear\n\u{feff}clear";
    assert!(last(second).starts_with("    '\\u{feff}clear' begins no command; "));
}

/// Lines of words by chance, with one space between them: a command for the one is the same command for the other, and what is none is
/// told why, unless it names a file.
#[test]
fn the_same_commands_as_the_strict_reader() {
    let mut chance = Chance(0x5eed_0901);
    let words = [
        "load",
        "holds",
        "blank",
        "clear",
        "tc",
        "req",
        "rep",
        "clk",
        "out",
        "wd",
        "setwd",
        "sheet",
        "sheet2",
        "next",
        "0",
        "7",
        "63",
        "64",
        "255",
        "256",
        "4096",
        "4097",
        "65535",
        "65536",
        "4294967295",
        "4294967296",
        "00",
        "0A",
        "abc",
        "-",
        "x",
        "#",
        "1.5",
        "ä",
    ];
    let (mut commands, mut wrong) = (0, 0);
    for _ in 0..200_000 {
        let name = words[chance.below(14)];
        let count = chance.below(9);
        let rest = (0..count).map(|_| words[chance.below(words.len())]);
        let line = std::iter::once(name).chain(rest).collect::<Vec<_>>();
        let line = line.join(" ");
        match (typed(line.as_bytes()), line_of(line.as_bytes())) {
            (Typed::Command(one), Line::Command(other)) => {
                assert_eq!(one, other, "{line}");
                commands += 1;
            }
            (Typed::Wrong(why), Line::NoCommand) => {
                assert!(!why.is_empty(), "{line}");
                wrong += 1;
            }
            (Typed::File(_, file), Line::NoCommand) => {
                assert_eq!(Some(file.as_str()), line.get(name.len() + 1..), "{line}");
            }
            other => panic!("{line}: {other:?}"),
        }
    }
    assert!(commands > 5_000 && wrong > 100_000, "{commands} {wrong}");
}

#[test]
fn why_a_line_is_no_command() {
    let commands = "a command begins with one of: load, clear, tc, req, rep, clk, out, wd, setwd, sheet, sheet2, next, blank, holds";
    for (line, why) in [
        ("bogus 1", format!("'bogus' begins no command; {commands}")),
        ("Clear", format!("'Clear' begins no command; {commands}")),
        ("clear\u{a0}", format!("'clear\\u{{a0}}' begins no command; {commands}")),
        ("clear 1", "behind 'clear' stands 1 word and should stand 0: clear".into()),
        ("tc 0 1", "behind 'tc' stand 2 words and should stand 3: tc BYTE CLOCK BUF (a time-code, and the size of the record buffer)".into()),
        ("tc 256 0 136", "256 is too great; right is a number from 0 to 63".into()),
        ("tc 0 0 4097", "4097 is too great; right is a number from 0 to 4096".into()),
        ("req 1 2 0", "behind 'req' stand 3 words and should stand 4: req I T K L (a request of initiator I to target T, kind K 0 read or 1 write, L data bytes)".into()),
        ("req 1 2 read 0", "'read' is no number; right is a number in decimal digits, 0 to 1".into()),
        ("req 1 2 0 65536", "65536 is too great; right is a number from 0 to 4096".into()),
        ("rep 1 2", "behind 'rep' stand 2 words and should stand 3: rep I NUM STATUS (a reply to transaction NUM of initiator I)".into()),
        ("rep 1 65536 0", "65536 is too great; right is a number from 0 to 65535".into()),
        ("rep 1 2 256", "256 is too great; right is a number from 0 to 255".into()),
        ("clk", "behind 'clk' stand 0 words and should stand 1: clk T (a clock reading)".into()),
        ("clk -1", "'-1' is no number; right is a number in decimal digits, 0 to 4294967295".into()),
        ("out", "behind 'out' stand 0 words and should stand 1: out ROOM (the plan written out into ROOM bytes)".into()),
        ("out 32769", "32769 is too great; right is a number from 0 to 32768".into()),
        ("wd 1", "behind 'wd' stands 1 word and should stand 0: wd".into()),
        ("setwd 1", "behind 'setwd' stands 1 word and should stand 5: setwd LAST SEEN REPORTED LEAST GREATEST".into()),
        ("sheet 1", "behind 'sheet' stands 1 word and should stand 7: sheet R S D A DD F G (R routers, S Mbit/s, D data bytes, latencies A DD F G in ns)".into()),
        ("sheet 256 200 0 0 0 0 0", "256 is too great; right is a number from 0 to 7".into()),
        ("sheet 0 65536 0 0 0 0 0", "65536 is too great; right is a number from 2 to 400".into()),
        ("sheet 0 200 0 0 x 0 0", "'x' is no number; right is a number in decimal digits, 0 to 1000000".into()),
        ("sheet2 1", "behind 'sheet2' stands 1 word and should stand 8: sheet2 RC RR S D A DD F G (RC routers on the command's way, RR on the reply's, then as for sheet)".into()),
        ("next 1", "behind 'next' stands 1 word and should stand 4: next I T D SLOT (the next turn of initiator I to target T with D data bytes, after SLOT)".into()),
        ("next 1 2 3 256", "256 is too great; right is a number from 0 to 63".into()),
        ("blank 1", "behind 'blank' stands 1 word and should stand 0: blank".into()),
        ("load", "behind 'load' stand 0 words and should stand 1: load HEX or load FILE (a plan file in lowercase hex, - for the empty one; or a plan file or its text)".into()),
        ("load 00 00", "behind 'load' stand 2 words and should stand 1: load HEX or load FILE (a plan file in lowercase hex, - for the empty one; or a plan file or its text)".into()),
        ("load 000", "'000' has 3 hex digits; right are two for each byte; a file of this name is ./000".into()),
        ("load 0A", "'0A' has digits of upper case; right are 0 to 9 and a to f; a file of this name is ./0A".into()),
        ("holds", "behind 'holds' stand 0 words and should stand 1: holds HEX or holds FILE (a plan file in lowercase hex, - for the empty one; or a plan file or its text)".into()),
        ("holds BAD", "'BAD' has 3 hex digits; right are two for each byte; a file of this name is ./BAD".into()),
    ] {
        assert_eq!(typed(line.as_bytes()), Typed::Wrong(vec![why]), "{line}");
    }
}

#[test]
fn two_reasons() {
    says(
        "tc 300 x 136",
        "line 1: not a command: tc 300 x 136\n    300 is too great; right is a number from 0 to 63\n    'x' is no number; right is a number in decimal digits, 0 to 4294967295\n",
    );
    says(
        "clear # the box",
        "line 1: not a command: clear # the box\n    behind 'clear' stand 3 words and should stand 0: clear\n    a comment has a line of its own, which begins with #\n",
    );
}

/// Words that fill a line are shortened.
#[test]
fn long_words() {
    let digits = "9".repeat(1_000);
    let nines = "9".repeat(60);
    says(
        &format!("clk {digits}"),
        &format!("line 1: not a command: clk {}...\n    {nines}... is too great; right is a number from 0 to 4294967295\n", "9".repeat(56)),
    );
    assert_eq!(
        last(&format!("load {}", "00".repeat(16_401))),
        "    these are 32802 hex digits; right are at most 32800"
    );
    let said = last(&"x".repeat(1_000));
    assert!(
        said.starts_with(&format!("    '{}...' begins", "x".repeat(60))),
        "{said}"
    );
}

/// A script whose lines are no commands ends with 2, also where a load was refused; one with a refused load ends with 1; refused events, and
/// a box that is not blank, are answers.
#[test]
fn statuses() {
    let guide = format!("load {}", hex("plans/guide.plan"));
    for (script, status) in [
        (String::new(), Status::Done),
        ("clk 1\nclear\nblank\nholds -".into(), Status::Done),
        (format!("{guide}\nblank\nrep 1 0 0"), Status::Done),
        ("load -".into(), Status::Refused),
        (format!("load -\n{guide}"), Status::Refused),
        ("load -\nbogus".into(), Status::Complaints),
        ("load no-such-file".into(), Status::Complaints),
        ("holds no-such-file\nload -".into(), Status::Complaints),
    ] {
        assert_eq!(plays(script.as_bytes()).1, status, "{script}");
        let ran = run(PANEL, &["-"], script.as_bytes());
        assert_eq!(
            (ran.err.as_str(), ran.status),
            ("", status as i32),
            "{script}"
        );
    }
}

/// Made once for all tests here.
fn folder(name: &str) -> std::path::PathBuf {
    let folder = root().join("target/typed").join(name);
    fs::create_dir_all(&folder).unwrap();
    folder
}

/// A plan file, its text by its name, its text by its look, a name with blanks, one that is all hex digits.
#[test]
fn plans_from_files() {
    let folder = folder("files");
    let text = fs::read(root().join("plans/guide.plan")).unwrap();
    let marked = [&b"\xef\xbb\xbf\r\n"[..], &text].concat();
    for (name, content) in [
        ("guide.bin", bytes("plans/guide.plan")),
        ("guide.plan", text.clone()),
        ("text of the  guide.txt", text.clone()),
        ("marked", marked),
        ("cafe", text),
    ] {
        fs::write(folder.join(name), content).unwrap();
        let file = format!("target/typed/files/{name}");
        let script = format!(
            "load  {file}\t\r\nholds {file}\nholds {}\n",
            hex("plans/guide.plan")
        );
        let ran = run(PANEL, &[], script.as_bytes());
        let holds = "holds: the box holds the plan of this file, fingerprint ";
        let said: Vec<_> = ran.text().lines().collect();
        assert_eq!(said[0], "load: ACCEPTED 5 4 3 4: the plan is in the box (devices 5, links 4, paths 3, entries 4)");
        assert!(said[1].starts_with(holds), "{name}: {said:?}");
        assert_eq!(said[1], said[2], "{name}");
        assert_eq!((said.len(), ran.status), (3, 0), "{name}");
    }
    assert_eq!(
        typed(b"load cafe"),
        Typed::Command(Command::Load(vec![0xca, 0xfe]))
    );
    assert_eq!(
        typed(b"load ./cafe"),
        Typed::File(Use::Load, "./cafe".into())
    );
    assert_eq!(typed(b"holds  a b "), Typed::Wrong(vec!["behind 'holds' stand 2 words and should stand 1: holds HEX or holds FILE (a plan file in lowercase hex, - for the empty one; or a plan file or its text)".into()]));
    assert_eq!(
        typed(b"holds  a  z "),
        Typed::File(Use::Holds, "a  z".into())
    );
}

/// The box is as before, and the line counts as wrong.
#[test]
fn files_that_cannot_be_had() {
    let folder = folder("wrong");
    fs::write(folder.join("wrong.plan"), "node 1\nnod 2\nnode 300\n").unwrap();
    fs::write(folder.join("long.bin"), vec![0; (16 << 20) + 1]).unwrap();
    let guide = format!("load {}", hex("plans/guide.plan"));
    let right = "right is a plan file in lowercase hex, - for the empty one, or the name of a plan file or of its text";
    for (line, said) in [
        ("load no-such-file", format!("line 2: not done: load no-such-file\n    no-such-file: No such file or directory (os error 2)\n    {right}\n")),
        ("holds no\u{1}such", format!("line 2: not done: holds no\\u{{1}}such\n    no\\u{{1}}such: No such file or directory (os error 2)\n    {right}\n")),
        ("load plans", format!("line 2: not done: load plans\n    plans: Is a directory (os error 21)\n    {right}\n")),
        ("load target/typed/wrong/long.bin", format!("line 2: not done: load target/typed/wrong/long.bin\n    target/typed/wrong/long.bin: longer than 16777216 bytes: this is no plan\n    {right}\n")),
        ("load target/typed/wrong/wrong.plan", "line 2: not done: load target/typed/wrong/wrong.plan\n    target/typed/wrong/wrong.plan:2: nod 2\n        'nod' begins no item; an item begins with one of: node, router, link, path, entry, intervals, times, reply, name, bytes\n    target/typed/wrong/wrong.plan:3: node 300\n        300 is too great; right is a number from 0 to 63\n".into()),
    ] {
        let script = format!("{guide}\n{line}\nout 200\n");
        let ran = run(PANEL, &[], script.as_bytes());
        let (_, rest) = ran.text().split_once('\n').unwrap();
        assert_eq!(rest, format!("{said}the plan written out: 110 bytes\n"));
        assert_eq!((ran.err.as_str(), ran.status), ("", Status::Complaints as i32));
    }
    says("load \u{1}", &format!("line 1: not done: load \\u{{1}}\n    \\u{{1}}: No such file or directory (os error 2)\n    {right}\n"));
    let (said, _) = plays(b"load a\xffz");
    assert_eq!(
        said,
        "line 1: not a command: load a\u{fffd}z\n    the name of this file is no UTF-8\n"
    );
}

/// A file that is known for something else is not loaded; one that is damaged is for the box to refuse.
#[test]
fn files_of_other_kinds() {
    let folder = folder("kinds");
    let hex = hex("plans/guide.plan");
    let right = "right is a plan file in lowercase hex, - for the empty one, or the name of a plan file or of its text";
    for (name, content, looks) in [
        (
            "hex.txt",
            hex.into_bytes(),
            "this looks like a plan file in hex; ",
        ),
        (
            "script.txt",
            b"clear\ntc 0 0 136\n".to_vec(),
            "this looks like a script: ",
        ),
        (
            "words.txt",
            b"Dear team,\n".to_vec(),
            "this is text, but no line of it begins an item of a plan",
        ),
        (
            "wide.txt",
            b"\xff\xfen\0o\0".to_vec(),
            "this looks like text in UTF-16: ",
        ),
        (
            "image.bin",
            vec![0; spwd::IMAGE_SIZE],
            "this looks like an image of a box, ",
        ),
    ] {
        fs::write(folder.join(name), content).unwrap();
        let file = format!("target/typed/kinds/{name}");
        let ran = run(PANEL, &[], format!("load {file}\n").as_bytes());
        let said: Vec<_> = ran.text().lines().collect();
        assert_eq!(said[0], format!("line 1: not done: load {file}"));
        assert!(
            said[1].starts_with(&format!("    {file}: {looks}")),
            "{said:?}"
        );
        assert_eq!((said[2], said.len()), (format!("    {right}").as_str(), 3));
        assert_eq!(ran.status, Status::Complaints as i32, "{name}");
    }
    for (name, content, verdict) in [
        ("damaged.bin", vec![8, 0, 9], "REFUSED 2 0"),
        ("empty.bin", Vec::new(), "REFUSED 12 0"),
        ("empty.plan", Vec::new(), "REFUSED 12 0"),
    ] {
        fs::write(folder.join(name), content).unwrap();
        let ran = run(
            PANEL,
            &[],
            format!("load target/typed/kinds/{name}\n").as_bytes(),
        );
        assert!(
            ran.text().starts_with(&format!("load: {verdict}: ")),
            "{}",
            ran.text()
        );
        assert_eq!(ran.status, Status::Refused as i32, "{name}");
    }
}

/// A refused file is loaded as a load is: the box has no plan then.
#[test]
fn a_refused_file() {
    says(
        "load ../../plans/sample-overrun.plan\nout 0",
        "load: REFUSED 13 1 63: this entry is still running when the same initiator's next entry begins (initiator 1, slot 63); there is no plan in the box\nwriting out: refused 20: there is no plan in the box\n",
    );
}

#[test]
fn blank_or_not() {
    let yes = "blank: every number of the box is that of a clear";
    assert_eq!(last("blank"), yes);
    assert_eq!(last("clear\nblank"), yes);
    assert_eq!(last("load -\nblank"), yes);
    let guide = format!("load {}", hex("plans/guide.plan"));
    let print =
        "fingerprint GUIDE (devices 5, links 4, paths 3, entries 4)".replace("GUIDE", &print());
    assert_eq!(
        last(&format!("{guide}\nblank")),
        format!("blank: no: the box is not blank: a plan is in it, {print}")
    );
    assert_eq!(
        last(&format!("{guide}\nreq 1 20 0 1\ntc 0 9 136\nclear\nblank")),
        yes
    );
    assert_eq!(last(&format!("{guide}\nload -\nblank")), yes);
    assert_eq!(
        last("setwd 0 0 7 0 3\nblank"),
        "blank: no: the box is not blank: no plan, but the watchdog's five numbers: last clock 0, seen no, reported yes, least 0, greatest 3"
    );
}

/// Of the guide's plan, which is canonical as it stands but for the order of its devices.
fn print() -> String {
    let judged = desk::judge::judge(&bytes("plans/guide.plan"));
    desk::fingerprint::fingerprint(&judged.held)
}

#[test]
fn holds_or_not() {
    let (guide, first) = (hex("plans/guide.plan"), hex("plans/sample-first.plan"));
    assert_eq!(
        last(&format!("holds {guide}")),
        "holds: no: there is no plan in the box"
    );
    assert_eq!(
        last(&format!(
            "load {guide}\nreq 1 20 0 1\ntc 0 9 136\nholds {guide}"
        )),
        format!(
            "holds: the box holds the plan of this file, fingerprint {}",
            print()
        )
    );
    let other =
        desk::fingerprint::fingerprint(&desk::judge::judge(&bytes("plans/sample-first.plan")).held);
    assert_ne!(other, print());
    assert_eq!(
        last(&format!("load {guide}\nholds {first}")),
        format!(
            "holds: no: the box holds another plan, fingerprint {}; that of this file has {other}",
            print()
        )
    );
    for script in ["holds -".to_string(), format!("load {guide}\nholds -")] {
        assert_eq!(
            last(&script),
            "holds: no: this file is refused, and no box holds it: REFUSED 12 0: the timing field is missing (file length 0)"
        );
    }
    assert_eq!(
        last(&format!("load {guide}\nclear\nholds {guide}")),
        "holds: no: there is no plan in the box"
    );
}

/// Asking changes nothing.
#[test]
fn questions_leave_the_box_alone() {
    let guide = hex("plans/guide.plan");
    let plain = format!("load {guide}\nreq 1 20 0 1\ntc 0 9 136\nwd\nrep 1 0 0\ntc 1 10 136");
    let asked = plain.replace('\n', &format!("\nblank\nholds -\nholds {guide}\n"));
    let (plain, _) = plays(plain.as_bytes());
    let (asked, _) = plays(asked.as_bytes());
    let rest: String = asked
        .lines()
        .filter(|line| !line.starts_with("blank: ") && !line.starts_with("holds: "))
        .map(|line| format!("{line}\n"))
        .collect();
    assert_eq!(rest, plain);
}
