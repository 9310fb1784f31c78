//! The two programs, from standard input to standard output.

mod common;

use common::{
    entry, first_plan, intervals, least_plan, path, plan_a, reply, row_plan, split, two_ways,
    usual_times, Driver,
};
use std::io::{BufRead, BufReader, Write};
use std::process::{Command, Stdio};

const REPLAY: &str = env!("CARGO_BIN_EXE_reference-replay");
const VERDICT: &str = env!("CARGO_BIN_EXE_reference-verdict");

fn run(program: &str, input: &[u8]) -> String {
    let mut child = Command::new(program)
        .stdin(Stdio::piped())
        .stdout(Stdio::piped())
        .spawn()
        .unwrap();
    let mut stdin = child.stdin.take().unwrap();
    let input = input.to_vec();
    let writer = std::thread::spawn(move || {
        // A program that has read enough may be gone before it has all.
        let _ = stdin.write_all(&input);
    });
    let output = child.wait_with_output().unwrap();
    writer.join().unwrap();
    assert!(output.status.success());
    String::from_utf8(output.stdout).unwrap()
}

fn hex(bytes: &[u8]) -> String {
    if bytes.is_empty() {
        return "-".to_owned();
    }
    bytes.iter().map(|byte| format!("{byte:02x}")).collect()
}

/// Runs the commands and checks what each one prints.
fn replay(script: &[(&str, &str)]) {
    let (commands, expected): (Vec<&str>, Vec<&str>) = script.iter().copied().unzip();
    let printed = run(REPLAY, (commands.join("\n") + "\n").as_bytes());
    let expected: Vec<&str> = expected
        .into_iter()
        .filter(|line| !line.is_empty())
        .collect();
    assert_eq!(printed.lines().collect::<Vec<&str>>(), expected);
}

#[test]
fn verdict_program() {
    assert_eq!(run(VERDICT, &first_plan()), "ACCEPTED 6 5 4 2\n");
    assert_eq!(run(VERDICT, b""), "REFUSED 12 0\n");
    assert_eq!(run(VERDICT, &[6, 0, 0]), "REFUSED 5 0\n");
    assert_eq!(run(VERDICT, &[6; 16_384]), "REFUSED 5 0\n");
    assert_eq!(run(VERDICT, &[6; 16_385]), "REFUSED 1 0\n");
    assert_eq!(run(VERDICT, &[6; 200_000]), "REFUSED 1 0\n");
    assert_eq!(run(VERDICT, &intervals(90, 110)), "REFUSED 15 11\n");
    assert_eq!(run(VERDICT, &plan_a(&[])), "REFUSED 15 101\n");
    let clash = plan_a(&[entry(1, 63, 2, &[3]), entry(2, 0, 1, &[3])]);
    assert_eq!(run(VERDICT, &clash), "REFUSED 14 0 1 2 2\n");
    let timed = [first_plan(), usual_times(0)].concat();
    assert_eq!(run(VERDICT, &timed), "ACCEPTED 6 5 4 2\n");
}

#[test]
fn the_page_s_example() {
    let smallest =
        "01000201000100020200020003000102030003010200040004010001020500080000005a0000006e";
    replay(&[
        ("load 0500080000005a0000006e", "REFUSED 15 11"),
        (&format!("load {smallest}"), "ACCEPTED 2 1 1 1"),
        ("tc 0 1000 136", "0 0 -"),
        ("clk 1111", "0 1"),
        ("sheet 4 200 256 5000 5000 5000 5000", "0 39450"),
    ]);
}

#[test]
fn every_command() {
    let load = format!("load {}", hex(&first_plan()));
    let no_entry = format!("load {}", hex(&plan_a(&[])));
    let canonical = Driver::new(&first_plan()).written_out();
    let size = canonical.len();
    let out = format!("0 {size} {}", hex(&canonical));
    let room = format!("out {size}");
    let short = format!("out {}", size - 1);
    replay(&[
        ("# the box starts as after a clear", ""),
        ("wd", "0 0 0 0 0"),
        ("tc 0 0 136", "20 0 -"),
        ("req 1 3 0 100", "20 0"),
        ("rep 1 0 0", "20 0 0 0 0"),
        ("clk 0", "20 0"),
        ("out 32768", "20 0 -"),
        ("next 1 3 100 0", "20 0"),
        (&load, "ACCEPTED 6 5 4 2"),
        ("wd", "0 0 0 90 110"),
        ("next 1 3 100 0", "0 64"),
        (&room, &out),
        (&short, "30 0 -"),
        ("req 1 3 0 100", "0 0"),
        ("req 1 3 1 0", "0 1"),
        ("req 3 3 0 0", "22 0"),
        ("req 1 3 2 0", "23 0"),
        ("req 1 3 0 65535", "24 0"),
        ("req 1 255 0 0", "25 0"),
        ("rep 1 0 0", "27 0 0 0 0"),
        ("", ""),
        ("tc 64 0 4096", "21 0 -"),
        ("tc 0 1000 135", "29 0 -"),
        ("tc 0 1000 136", "0 1 0501030000000064"),
        ("wd", "1000 1 0 90 110"),
        ("rep 1 65535 0", "28 0 0 0 0"),
        ("rep 1 0 255", "0 3 100 255 2"),
        ("clk 1111", "0 1"),
        ("clk 1111", "0 0"),
        ("wd", "1000 1 1 90 110"),
        ("setwd 4294967295 9 0 4294967295 7", "OK"),
        ("wd", "4294967295 1 0 4294967295 7"),
        ("tc 5 0 4096", "0 2 01000005000000000300000500000000"),
        ("load -", "REFUSED 12 0"),
        ("wd", "0 0 0 0 0"),
        ("setwd 1 1 1 1 1", "OK"),
        ("clear", "CLEARED"),
        ("wd", "0 0 0 0 0"),
        ("clk 1", "20 0"),
        (&load, "ACCEPTED 6 5 4 2"),
        ("req 1 3 0 100", "0 0"),
        (&no_entry, "REFUSED 15 101"),
        ("wd", "0 0 0 0 0"),
        ("tc 0 1000 136", "20 0 -"),
        ("req 1 3 0 100", "20 0"),
        ("out 32768", "20 0 -"),
        ("next 1 3 100 0", "20 0"),
    ]);
}

#[test]
fn next_turns() {
    let plan = plan_a(&[
        entry(1, 62, 3, &[3, 4]),
        entry(1, 5, 1, &[3]),
        entry(2, 30, 1, &[4]),
    ]);
    let load = format!("load {}", hex(&plan));
    replay(&[
        ("next 0 0 0 0", "20 0"),
        ("next 255 255 65535 255", "20 0"),
        (&load, "ACCEPTED 6 5 4 3"),
        ("next 1 3 0 0", "0 5"),
        ("next 1 3 256 4", "0 1"),
        ("next 1 3 256 5", "0 57"),
        ("next 1 3 256 63", "0 6"),
        ("next 1 3 257 4", "0 58"),
        ("next 1 3 257 62", "0 64"),
        ("next 1 3 768 63", "0 63"),
        ("next 1 3 769 63", "25 0"),
        ("next 1 4 256 4", "0 58"),
        ("next 2 4 256 31", "0 63"),
        ("next 2 4 257 31", "25 0"),
        ("next 2 3 0 31", "25 0"),
        ("next 1 255 0 0", "25 0"),
        ("next 3 1 0 0", "22 0"),
        ("next 255 255 65535 255", "22 0"),
        ("next 1 255 4097 255", "24 0"),
        ("next 1 3 65535 0", "24 0"),
        ("next 1 255 4096 255", "25 0"),
        ("next 1 3 0 64", "33 0"),
        ("next 1 3 768 255", "33 0"),
        ("tc 4 1000 136", "0 0 -"),
        ("req 1 3 0 256", "0 0"),
        ("next 1 3 256 4", "0 1"),
        ("tc 5 1100 136", "0 1 0501030500000100"),
        ("clear", "CLEARED"),
        ("next 1 3 0 0", "20 0"),
    ]);
}

#[test]
fn sheets() {
    replay(&[
        ("sheet 4 200 256 5000 5000 5000 5000", "0 39450"),
        ("sheet 0 2 0 0 0 0 0", "0 125000"),
        (
            "sheet 7 2 4096 1000000 1000000 1000000 1000000",
            "0 24723400",
        ),
        ("sheet 7 400 4096 1 20 300 4000", "0 116296"),
        ("sheet 8 200 256 5000 5000 5000 5000", "6 0"),
        ("sheet 255 200 256 5000 5000 5000 5000", "6 0"),
        ("sheet 4 1 256 5000 5000 5000 5000", "6 0"),
        ("sheet 4 0 256 5000 5000 5000 5000", "6 0"),
        ("sheet 4 401 256 5000 5000 5000 5000", "6 0"),
        ("sheet 4 65535 256 5000 5000 5000 5000", "6 0"),
        ("sheet 4 200 4097 5000 5000 5000 5000", "6 0"),
        ("sheet 4 200 65535 5000 5000 5000 5000", "6 0"),
        ("sheet 4 200 256 1000001 5000 5000 5000", "6 0"),
        ("sheet 4 200 256 5000 1000001 5000 5000", "6 0"),
        ("sheet 4 200 256 5000 5000 1000001 5000", "6 0"),
        ("sheet 4 200 256 5000 5000 5000 1000001", "6 0"),
        ("sheet 4 200 256 5000 5000 5000 4294967295", "6 0"),
    ]);
}

#[test]
fn sheets_with_two_ways() {
    replay(&[
        ("sheet2 4 4 200 256 5000 5000 5000 5000", "0 39450"),
        ("sheet2 0 0 2 0 0 0 0 0", "0 125000"),
        // Headers of 1 + 16 + 8 and of 5 + 16 + 4 bytes.
        ("sheet2 1 5 100 1 1 20 300 4000", "0 11921"),
        ("sheet2 5 1 100 1 1 20 300 4000", "0 11521"),
        ("sheet2 0 7 2 0 0 0 0 0", "0 204200"),
        ("sheet2 7 0 2 0 0 0 0 0", "0 164200"),
        (
            "sheet2 7 7 2 4096 1000000 1000000 1000000 1000000",
            "0 24723400",
        ),
        ("sheet2 8 4 200 256 5000 5000 5000 5000", "6 0"),
        ("sheet2 4 8 200 256 5000 5000 5000 5000", "6 0"),
        ("sheet2 255 0 200 256 5000 5000 5000 5000", "6 0"),
        ("sheet2 0 255 200 256 5000 5000 5000 5000", "6 0"),
        ("sheet2 4 4 1 256 5000 5000 5000 5000", "6 0"),
        ("sheet2 4 4 401 256 5000 5000 5000 5000", "6 0"),
        ("sheet2 4 4 200 4097 5000 5000 5000 5000", "6 0"),
        ("sheet2 4 4 200 256 1000001 5000 5000 5000", "6 0"),
        ("sheet2 4 4 200 256 5000 1000001 5000 5000", "6 0"),
        ("sheet2 4 4 200 256 5000 5000 1000001 5000", "6 0"),
        ("sheet2 4 4 200 256 5000 5000 5000 1000001", "6 0"),
    ]);
}

#[test]
fn a_plan_with_replies() {
    let entries = [path(1, 3, &[0, 2]), entry(1, 0, 1, &[3])];
    let back = reply(1, 3, &[2, 4, 6, 21]);
    let plan = |slot_length| {
        let more = [usual_times(slot_length), back.clone()];
        two_ways(&[&entries[..], &more].concat())
    };
    // One router there and three back: 24,000 ns beside the data and its CRC.
    let load = format!("load {}", hex(&plan(24_100)));
    let out = format!(
        "0 {} {}",
        plan(24_100).len(),
        hex(&canonical(&plan(24_100)))
    );
    let wrong_way = two_ways(&[&entries[..], &[reply(1, 3, &[21, 6, 4, 2])]].concat());
    let no_path = two_ways(&[&entries[..], &[reply(1, 4, &[24, 21])]].concat());
    let place = two_ways(&entries).len();
    replay(&[
        (&load, "ACCEPTED 7 11 1 1"),
        ("req 1 3 0 1", "0 0"),
        ("req 1 3 0 2", "25 0"),
        ("req 3 1 0 1", "22 0"),
        ("tc 0 0 136", "0 1 0501030000000001"),
        ("rep 1 0 0", "0 3 1 0 0"),
        ("out 32768", &out),
        (
            &format!("load {}", hex(&wrong_way)),
            &format!("REFUSED 10 {place}"),
        ),
        (
            &format!("load {}", hex(&no_path)),
            &format!("REFUSED 11 {place}"),
        ),
    ]);
}

fn canonical(file: &[u8]) -> Vec<u8> {
    Driver::new(file).written_out()
}

#[test]
fn a_plan_with_times() {
    let plan = |slot_length| row_plan(&[entry(0, 0, 1, &[4])], &usual_times(slot_length));
    let load = |slot_length| format!("load {}", hex(&plan(slot_length)));
    let size = plan(39_450).len();
    let canonical = Driver::new(&plan(39_450)).written_out();
    let out = format!("0 {size} {}", hex(&canonical));
    replay(&[
        (&load(39_450), "ACCEPTED 16 15 8 1"),
        ("req 0 4 0 256", "0 0"),
        ("req 0 4 0 257", "25 0"),
        ("tc 0 0 136", "0 1 0500040000000100"),
        ("out 32768", &out),
        (&load(39_449), "ACCEPTED 16 15 8 1"),
        ("req 0 4 0 256", "25 0"),
        ("req 0 4 0 255", "0 0"),
        (&load(26_649), "ACCEPTED 16 15 8 1"),
        ("req 0 4 0 0", "25 0"),
        (&load(1_000_001), "REFUSED 6 264"),
        ("sheet 4 200 256 5000 5000 5000 5000", "0 39450"),
    ]);
}

#[test]
fn blank_or_not() {
    let load = format!("load {}", hex(&first_plan()));
    let no_entry = format!("load {}", hex(&plan_a(&[])));
    let mut script = vec![
        ("blank", "1"),
        ("wd", "0 0 0 0 0"),
        ("tc 0 0 136", "20 0 -"),
        ("clk 5", "20 0"),
        ("blank", "1"),
        (&load, "ACCEPTED 6 5 4 2"),
        ("blank", "0"),
        ("setwd 0 0 0 0 0", "OK"),
        ("blank", "0"),
        ("req 1 3 0 100", "0 0"),
        ("tc 0 1000 136", "0 1 0501030000000064"),
        ("blank", "0"),
        ("wd", "1000 1 0 0 0"),
        ("clear", "CLEARED"),
        ("blank", "1"),
        (&load, "ACCEPTED 6 5 4 2"),
        ("load -", "REFUSED 12 0"),
        ("blank", "1"),
        (&load, "ACCEPTED 6 5 4 2"),
        (&no_entry, "REFUSED 15 101"),
        ("blank", "1"),
        ("blank", "1"),
    ];
    // Each of the five by itself, whatever it is.
    for five in [
        "setwd 1 0 0 0 0",
        "setwd 0 1 0 0 0",
        "setwd 0 2 0 0 0",
        "setwd 0 4294967295 0 0 0",
        "setwd 0 0 1 0 0",
        "setwd 0 0 256 0 0",
        "setwd 0 0 0 4294967295 0",
        "setwd 0 0 0 0 2147483648",
    ] {
        script.extend([(five, "OK"), ("blank", "0")]);
        script.extend([("setwd 0 0 0 0 0", "OK"), ("blank", "1")]);
        script.extend([(five, "OK"), ("clear", "CLEARED"), ("blank", "1")]);
        script.extend([(five, "OK"), ("load -", "REFUSED 12 0"), ("blank", "1")]);
    }
    replay(&script);
}

/// A plan whose entries stand far apart, with the first of them at this slot.
fn apart(slot: u8) -> Vec<u8> {
    plan_a(&[entry(1, slot, 2, &[3, 4]), entry(2, 60, 1, &[4])])
}

/// The fields of each tag in falling order.
fn turned(file: &[u8]) -> Vec<u8> {
    let mut fields = split(file);
    fields.reverse();
    fields.sort_by_key(|field| field[0]);
    fields.concat()
}

/// Lines of a script, each with its answer.
type Answered = Vec<(String, &'static str)>;

/// Questions for files.
fn asked(questions: &[(Vec<u8>, bool)]) -> Answered {
    let line = |(file, holds): &(Vec<u8>, bool)| {
        let answer = if *holds { "1" } else { "0" };
        (format!("holds {}", hex(file)), answer)
    };
    questions.iter().map(line).collect()
}

/// What is asked of a box with the plan that has its first entry at slot 5.
fn asked_of_five() -> Answered {
    asked(&[
        (apart(5), true),
        (turned(&apart(5)), true),
        (canonical(&apart(5)), true),
        (apart(6), false),
        // Refused, for a clash and otherwise.
        (apart(59), false),
        (vec![1; 16_400], false),
        (vec![], false),
        (vec![0], false),
        (intervals(90, 110), false),
    ])
}

#[test]
fn holds_or_not() {
    let [load, load_moved, load_refused] =
        [5, 6, 59].map(|slot| format!("load {}", hex(&apart(slot))));
    let held = asked_of_five();
    let none: Answered = held.iter().map(|(line, _)| (line.clone(), "0")).collect();
    let moved = asked(&[
        (apart(6), true),
        (turned(&apart(6)), true),
        (apart(5), false),
        (vec![], false),
    ]);
    let parts = [
        (none.clone(), ("blank", "1")),
        (vec![], (&load[..], "ACCEPTED 6 5 4 2")),
        (held, (&load_moved, "ACCEPTED 6 5 4 2")),
        (moved, (&load_refused, "REFUSED 14 60 1 2 3")),
        (none.clone(), ("blank", "1")),
        (vec![], (&load, "ACCEPTED 6 5 4 2")),
        (vec![], ("clear", "CLEARED")),
        (none, ("blank", "1")),
    ];
    replay_parts(&parts);
}

#[test]
fn holds_whatever_waits_or_is_live() {
    let load = format!("load {}", hex(&apart(5)));
    let held = asked_of_five;
    let parts = [
        (vec![], (&load[..], "ACCEPTED 6 5 4 2")),
        (held(), ("wd", "0 0 0 90 110")),
        (vec![], ("req 1 3 0 100", "0 0")),
        (held(), ("tc 5 1000 136", "0 1 0501030500000064")),
        (vec![], ("req 1 4 1 512", "0 1")),
        (held(), ("wd", "1000 1 0 90 110")),
        (vec![], ("setwd 9 8 7 6 5", "OK")),
        (held(), ("wd", "9 1 1 6 5")),
        // The live one, its number and the line are as they were.
        (vec![], ("rep 1 0 0", "0 3 100 0 0")),
        (held(), ("req 1 4 1 512", "0 2")),
    ];
    replay_parts(&parts);
}

/// Runs questions and the command that follows them, part by part.
fn replay_parts(parts: &[(Answered, (&str, &str))]) {
    let mut script: Vec<(&str, &str)> = Vec::new();
    for (questions, command) in parts {
        script.extend(questions.iter().map(|(line, answer)| (&line[..], *answer)));
        script.push(*command);
    }
    replay(&script);
}

#[test]
fn what_is_no_command() {
    let lines = [
        "laod -",
        "load",
        "load ",
        "load 0",
        "load 0g",
        "load 0A",
        "load 00 ",
        "load  00",
        "load --",
        "load 00 00",
        " clear",
        "clear ",
        "clear 1",
        "Clear",
        "tc 256 0 136",
        "tc 0 4294967296 136",
        "tc 0 0 4097",
        "tc 0 0",
        "tc 0 0 136 1",
        "tc -1 0 136",
        "tc +1 0 136",
        "tc 0x1 0 136",
        "req 256 0 0 0",
        "req 0 256 0 0",
        "req 0 0 256 0",
        "req 0 0 0 65536",
        "rep 0 65536 0",
        "rep 0 0 256",
        "rep 256 0 0",
        "clk 4294967296",
        "clk 99999999999999999999999999",
        "clk",
        "clk ",
        "out 32769",
        "out -",
        "wd 1",
        "setwd 1 2 3 4",
        "setwd 1 2 3 4 4294967296",
        "setwd 1 2 3 4 5 6",
        "sheet",
        "sheet 4 200 256 5000 5000 5000",
        "sheet 4 200 256 5000 5000 5000 5000 5000",
        "sheet 4 200 256 5000 5000 5000 ",
        "sheet 256 200 256 5000 5000 5000 5000",
        "sheet 4 65536 256 5000 5000 5000 5000",
        "sheet 4 200 65536 5000 5000 5000 5000",
        "sheet 4 200 256 4294967296 5000 5000 5000",
        "sheet 4 200 256 5000 4294967296 5000 5000",
        "sheet 4 200 256 5000 5000 4294967296 5000",
        "sheet 4 200 256 5000 5000 5000 4294967296",
        "sheet 4 200 256 5000 5000 5000 -1",
        "sheet2",
        "sheet2 4 200 256 5000 5000 5000 5000",
        "sheet2 4 4 200 256 5000 5000 5000",
        "sheet2 4 4 200 256 5000 5000 5000 5000 5000",
        "sheet2 4 4 200 256 5000 5000 5000 5000 ",
        "sheet2 256 4 200 256 5000 5000 5000 5000",
        "sheet2 4 256 200 256 5000 5000 5000 5000",
        "sheet2 4 4 65536 256 5000 5000 5000 5000",
        "sheet2 4 4 200 65536 5000 5000 5000 5000",
        "sheet2 4 4 200 256 4294967296 5000 5000 5000",
        "sheet2 4 4 200 256 5000 5000 5000 4294967296",
        "sheet2 4 -1 200 256 5000 5000 5000 5000",
        "sheet3 4 4 200 256 5000 5000 5000 5000",
        "next",
        "next 40 41 0",
        "next 40 41 0 0 0",
        "next 40 41 0 0 ",
        "next 256 41 0 0",
        "next 40 256 0 0",
        "next 40 41 65536 0",
        "next 40 41 0 256",
        "next 40 41 0 -1",
        "Next 40 41 0 0",
        "blank 1",
        "blank 0",
        "blank -",
        "blank ",
        " blank",
        "blanks",
        "Blank",
        "blan",
        "holds",
        "holds ",
        "holds 0",
        "holds ABC",
        "holds abc",
        "holds 0A",
        "holds 0g",
        "holds --",
        "holds 00 ",
        "holds  00",
        "holds 00 00",
        "holds - -",
        "holds -0",
        "Holds -",
        "hold -",
        "holds\t-",
        "clk 1\r",
        "clk\t1",
        " ",
    ];
    let load = format!("load {}", hex(&least_plan(90, 110)));
    let mut script = vec![
        (load, "ACCEPTED 2 1 1 1".to_owned()),
        ("setwd 1 1 0 3 4".to_owned(), "OK".to_owned()),
    ];
    for (index, line) in lines.iter().enumerate() {
        script.push(((*line).to_owned(), format!("ERROR line {}", index + 3)));
    }
    script.push(("wd".to_owned(), "1 1 0 3 4".to_owned()));
    script.push(("clk 6".to_owned(), "0 1".to_owned()));
    let script: Vec<(&str, &str)> = script
        .iter()
        .map(|(command, expected)| (&command[..], &expected[..]))
        .collect();
    replay(&script);
    let bytes = [&b"clear\n\xff\xfe\n\0\nclear"[..], &[]].concat();
    assert_eq!(
        run(REPLAY, &bytes),
        "CLEARED\nERROR line 2\nERROR line 3\nCLEARED\n"
    );
}

#[test]
fn long_lines_and_no_last_newline() {
    let most = format!("load {}", hex(&[6; 16_400]));
    let more = format!("load {}", hex(&[6; 16_401]));
    let allowed = format!("load {}", hex(&[6; 16_384]));
    let script = [&most[..], &more, &allowed, "\n# none", "clear"].join("\n");
    let printed = "REFUSED 1 0\nERROR line 2\nREFUSED 5 0\nCLEARED\n";
    assert_eq!(run(REPLAY, script.as_bytes()), printed);
    let script = script.replace("load", "holds");
    let printed = "0\nERROR line 2\n0\nCLEARED\n";
    assert_eq!(run(REPLAY, script.as_bytes()), printed);
    assert_eq!(run(REPLAY, b""), "");
}

#[test]
fn each_answer_comes_before_the_next_command() {
    let mut child = Command::new(REPLAY)
        .stdin(Stdio::piped())
        .stdout(Stdio::piped())
        .spawn()
        .unwrap();
    let mut stdin = child.stdin.take().unwrap();
    let mut stdout = BufReader::new(child.stdout.take().unwrap());
    for _ in 0..3 {
        stdin.write_all(b"clear\n").unwrap();
        let mut line = String::new();
        stdout.read_line(&mut line).unwrap();
        assert_eq!(line, "CLEARED\n");
    }
    drop(stdin);
    assert!(child.wait().unwrap().success());
}
