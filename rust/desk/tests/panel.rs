//! `spwd-panel`: scripts played in words, and which lines are commands.

mod common;

use common::{bytes, expected, root, run, Chance, PANEL};
use desk::panel::Panel;
use desk::script::{line_of, Command, Line};
use desk::sheet::Asked;
use desk::turns::{Question, Wanted};
use desk::ways::Routers;
use spwd::Latencies;
use std::collections::HashMap;
use std::fs;
use std::io::{BufRead, BufReader, Write};
use std::process::{Command as Process, Stdio};

fn plays(words: &[&str], script: &str, stored: &str, status: i32) {
    let script = fs::read(root().join("rust/desk/tests/scripts").join(script)).unwrap();
    let ran = run(PANEL, words, &script);
    assert_eq!(ran.text(), expected(stored));
    assert_eq!((ran.err.as_str(), ran.status), ("", status));
}

/// The samples of document 01 about events.
#[test]
fn samples() {
    plays(&[], "samples.txt", "panel/samples.txt", 1);
}

/// Every command, refusal and record of an accepted plan.
#[test]
fn everything() {
    plays(&[], "everything.txt", "panel/everything.txt", 1);
}

/// A plan with slot times: requests that are refused for these, and others.
#[test]
fn slot_times() {
    plays(&[], "times.txt", "panel/times.txt", 0);
}

/// A plan with a reply that comes home another way: its routers decide on lengths.
#[test]
fn replies() {
    plays(&[], "replies.txt", "panel/replies.txt", 1);
}

/// Next turns, and where a request starts: said where it stands alone in its line and the slot is known, and else not.
#[test]
fn turns() {
    plays(&[], "turns.txt", "panel/turns.txt", 0);
}

#[test]
fn with_the_card() {
    plays(
        &["--card", "-"],
        "everything.txt",
        "panel/everything-card.txt",
        1,
    );
}

/// Lines that are no command, and the last line without its newline.
#[test]
fn no_commands() {
    plays(&[], "no-commands.txt", "panel/no-commands.txt", 2);
}

#[test]
fn from_a_file() {
    let ran = run(PANEL, &["rust/desk/tests/scripts/samples.txt"], b"");
    assert_eq!(ran.text(), expected("panel/samples.txt"));
}

/// Whoever waits for an answer before the next command gets it.
#[test]
fn answers_at_once() {
    let mut child = Process::new(PANEL)
        .stdin(Stdio::piped())
        .stdout(Stdio::piped())
        .spawn()
        .unwrap();
    let mut stdin = child.stdin.take().unwrap();
    let mut answers = BufReader::new(child.stdout.take().unwrap()).lines();
    for (command, answer) in [
        ("clear\n", "clear: there is no plan in the box"),
        (
            "clk 1\n",
            "clock 1: refused 20: there is no plan in the box",
        ),
    ] {
        stdin.write_all(command.as_bytes()).unwrap();
        assert_eq!(answers.next().unwrap().unwrap(), answer);
    }
    drop(stdin);
    assert!(child.wait().unwrap().success());
}

/// The longest line that can be a command, and one byte more.
#[test]
fn longest_line() {
    let reading = |size: usize| format!("clk {}1", "0".repeat(size - 5));
    assert_eq!(
        line_of(reading(65_535).as_bytes()),
        Line::Command(Command::Reading { clock: 1 })
    );
    assert_eq!(line_of(reading(65_536).as_bytes()), Line::NoCommand);
}

/// A line of more than 65,535 bytes is no command, and the next line is read as if nothing had been.
#[test]
fn a_very_long_line() {
    let number = "0".repeat(100_000);
    let ran = run(
        PANEL,
        &[],
        format!("clk {number}1\n#{number}\nclear\n").as_bytes(),
    );
    let said = format!(
        "line 1: not a command: clk {}...\n    this line is too long; right are at most 65535 bytes\nclear: there is no plan in the box\n",
        "0".repeat(56)
    );
    assert_eq!(ran.text(), said);
    assert_eq!((ran.err.as_str(), ran.status), ("", 2));
}

/// The longest file that a script may load, one byte more, and the empty one.
#[test]
fn sizes_of_a_load() {
    let load = |size: usize| format!("load {}", "00".repeat(size));
    assert_eq!(
        line_of(load(16_400).as_bytes()),
        Line::Command(Command::Load(vec![0; 16_400]))
    );
    assert_eq!(line_of(load(16_401).as_bytes()), Line::NoCommand);
    assert_eq!(line_of(b"load -"), Line::Command(Command::Load(Vec::new())));
    let holds = |size: usize| load(size).replace("load", "holds");
    assert_eq!(
        line_of(holds(16_400).as_bytes()),
        Line::Command(Command::Holds(vec![0; 16_400]))
    );
    assert_eq!(line_of(holds(16_401).as_bytes()), Line::NoCommand);
    assert_eq!(
        line_of(b"holds -"),
        Line::Command(Command::Holds(Vec::new()))
    );
    for line in ["blank 1", "blank ", "holds", "holds 0", "holds a b"] {
        assert_eq!(line_of(line.as_bytes()), Line::NoCommand, "{line}");
    }
}

/// The greatest number that each word may be, and one more.
#[test]
fn ranges() {
    for (name, mosts) in [
        ("tc", &[255, 4_294_967_295, 4_096][..]),
        ("req", &[255, 255, 255, 65_535]),
        ("rep", &[255, 65_535, 255]),
        ("clk", &[4_294_967_295]),
        ("out", &[32_768]),
        ("setwd", &[4_294_967_295; 5]),
        (
            "sheet",
            &[
                255,
                65_535,
                65_535,
                4_294_967_295,
                4_294_967_295,
                4_294_967_295,
                4_294_967_295,
            ],
        ),
        (
            "sheet2",
            &[
                255,
                255,
                65_535,
                65_535,
                4_294_967_295,
                4_294_967_295,
                4_294_967_295,
                4_294_967_295,
            ],
        ),
        ("next", &[255, 255, 65_535, 255]),
    ] {
        let line = |numbers: &[u64]| {
            let words: Vec<_> = numbers.iter().map(u64::to_string).collect();
            line_of(format!("{name} {}", words.join(" ")).as_bytes())
        };
        let mosts: Vec<u64> = mosts.to_vec();
        assert!(matches!(line(&mosts), Line::Command(_)), "{name}");
        for place in 0..mosts.len() {
            let mut more = mosts.clone();
            more[place] += 1;
            assert_eq!(line(&more), Line::NoCommand, "{name} {place}");
        }
        assert_eq!(line(&mosts[1..]), Line::NoCommand, "{name}");
        assert_eq!(
            line(&[&mosts[..], &[0]].concat()),
            Line::NoCommand,
            "{name}"
        );
    }
}

#[test]
fn numbers_in_their_places() {
    let command = |line: &str| match line_of(line.as_bytes()) {
        Line::Command(command) => command,
        other => panic!("{line}: {other:?}"),
    };
    assert_eq!(
        command("tc 1 2 3"),
        Command::TimeCode {
            byte: 1,
            clock: 2,
            room: 3
        }
    );
    assert_eq!(
        command("req 1 2 3 0004"),
        Command::Request {
            initiator: 1,
            target: 2,
            kind: 3,
            length: 4
        }
    );
    assert_eq!(
        command("rep 1 2 3"),
        Command::Reply {
            initiator: 1,
            transaction: 2,
            status: 3
        }
    );
    assert_eq!(command("clk 1"), Command::Reading { clock: 1 });
    assert_eq!(command("out 1"), Command::Out { room: 1 });
    let five = Command::SetWatchdog([1, 2, 3, 4, 5]);
    assert_eq!(command("setwd 1 2 3 4 5"), five);
    let latencies = Latencies {
        a: 4,
        d: 5,
        f: 6,
        g: 7,
    };
    let asked = |routers| Command::Sheet {
        asked: Asked {
            routers,
            rate: 2,
            latencies,
        },
        length: 3,
    };
    assert_eq!(command("sheet 1 2 3 4 5 6 7"), asked(Routers::both(1)));
    let two = Routers {
        command: 8,
        reply: 9,
    };
    assert_eq!(command("sheet2 8 9 2 3 4 5 6 7"), asked(two));
    let wanted = Wanted {
        initiator: 1,
        target: 2,
        length: 3,
    };
    let slot = Some(4);
    let question = Question { wanted, slot };
    assert_eq!(command("next 1 2 3 4"), Command::Next(question));
    assert_eq!(command("load 0fa0"), Command::Load(vec![0x0f, 0xa0]));
    assert_eq!(command("holds 0fa0"), Command::Holds(vec![0x0f, 0xa0]));
    assert_eq!(command("blank"), Command::Blank);
    assert_eq!(command("wd"), Command::Watchdog);
    assert_eq!(command("clear"), Command::Clear);
}

/// The number behind a word of a line.
fn behind(line: &str, word: &str) -> u16 {
    let (_, rest) = line.split_once(&format!("{word} ")).unwrap();
    let end = rest.find(|letter: char| !letter.is_ascii_digit());
    rest[..end.unwrap_or(rest.len())].parse().unwrap()
}

/// The initiator and the number of a transaction in a line.
fn which(line: &str) -> (u16, u16) {
    (behind(line, "initiator"), behind(line, "number"))
}

/// A script by chance under a plan: requests up to these lengths, one in so many slots, and time-codes in sequence but for one in 200. Every
/// start that was said comes in that slot and after so many time-codes, unless one was out of sequence before. Gives how many came.
fn starts_as_said(plan: &str, requests: &[(u8, u8, u16)], one_in: usize) -> usize {
    let mut chance = Chance(0x5eed_0401);
    let mut panel = Panel::new(false);
    let hex = bytes(plan)
        .iter()
        .map(|byte| format!("{byte:02x}"))
        .collect::<String>();
    panel.play(format!("load {hex}").as_bytes());
    // The slot, and in how many time-codes.
    let mut said: HashMap<(u16, u16), (u16, u16)> = HashMap::new();
    let (mut slot, mut came) = (0, 0);
    for _ in 0..10_000 {
        while chance.below(one_in) == 0 {
            let (initiator, target, most) = requests[chance.below(requests.len())];
            let length = chance.below(usize::from(most) + 1);
            let request = format!("req {initiator} {target} 0 {length}");
            let line = panel.play(request.as_bytes()).remove(0);
            if let Some((request, start)) = line.split_once("; starts ") {
                said.insert(which(request), (behind(start, "slot"), behind(start, ",")));
            }
        }
        let skips = chance.below(200) == 0;
        if skips {
            said.clear();
        }
        slot = (slot + 1 + u8::from(skips)) % 64;
        said.values_mut().for_each(|start| start.1 -= 1);
        let lines = panel.play(format!("tc {slot} 0 136").as_bytes());
        for line in lines.iter().filter(|line| line.contains(" starts ")) {
            if let Some(start) = said.remove(&which(line)) {
                assert_eq!(start, (slot.into(), 0), "{plan}: {line}");
                came += 1;
            }
        }
        assert!(said.values().all(|start| start.1 > 0), "{plan}: {said:?}");
    }
    came
}

#[test]
fn starts_where_it_says() {
    let guide = [(1, 20, 256), (1, 21, 768), (2, 20, 768)];
    let timed = [(1, 20, 265), (1, 21, 1_705), (2, 20, 1_692)];
    let eight = [
        (0, 10, 256),
        (1, 11, 512),
        (3, 13, 4_096),
        (6, 14, 1_024),
        (7, 31, 9),
    ];
    for (plan, requests, one_in) in [
        ("plans/guide.plan", &guide[..], 40),
        ("plans/guide-reply.plan", &timed, 40),
        ("plans/eight.plan", &eight, 4),
    ] {
        let came = starts_as_said(plan, requests, one_in);
        assert!(came > 100, "{plan}: {came}");
    }
}
