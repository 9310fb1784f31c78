//! `spwd-counter`: images of boxes that the wrapper made, of damaged ones, and what is no image at all.

mod common;

use common::{bytes, plans, root, run, Chance, Ran, COMPILE, COUNTER};
use desk::counter::{blank, holds, read, Answer};
use desk::fingerprint::fingerprint;
use desk::judge::{held, judge};
use desk::memory::file_in;
use spwd::{Array, Image, Spwd, Watchdog, IMAGE_SIZE, READ, RECORDS_ROOM, WRITE};
use std::fs;

/// A box under a plan of the project.
fn under(plan: &str) -> Spwd {
    let mut spwd = Spwd::new();
    spwd.load(&bytes(&format!("plans/{plan}.plan"))).unwrap();
    spwd
}

/// The plans of the project that a box takes, as boxes under them, and their files.
fn accepted() -> Vec<(String, Spwd, Vec<u8>)> {
    let mut found = Vec::new();
    for plan in [plans("plans"), plans("rust/desk/tests/plans")].concat() {
        let text = fs::read(root().join(&plan)).unwrap();
        let Ok(compiled) = desk::form::compile(&text) else {
            continue;
        };
        let judged = judge(&compiled.bytes);
        if judged.verdict.is_accepted() {
            found.push((plan, judged.desk, compiled.bytes));
        }
    }
    assert!(found.len() > 15, "{}", found.len());
    found
}

/// Asks about an image on standard input.
fn ask(words: &[&str], image: &Image) -> Ran {
    run(COUNTER, words, image.bytes())
}

fn says(ran: &Ran, out: &str, status: i32) {
    let said = (ran.text(), ran.err.as_str(), ran.status);
    assert_eq!(said, (&format!("{out}\n")[..], "", status));
}

fn with(spwd: &Spwd, place: usize, byte: u8) -> Image {
    let mut bytes = *spwd.image().bytes();
    bytes[place] = byte;
    Image::new(bytes)
}

const GUIDE: &str = "devices 5, links 4, paths 3, entries 4";

fn guide() -> String {
    fingerprint(&held(&under("guide")))
}

#[test]
fn a_blank_box() {
    let mut cleared = under("guide");
    cleared.clear();
    let mut refused = under("guide");
    assert!(refused.load(b"").is_err());
    for spwd in [Spwd::new(), cleared, refused] {
        says(&ask(&["blank", "-"], &spwd.image()), "BLANK", 0);
        let ran = ask(&["holds", "-", "plans/guide.plan"], &spwd.image());
        says(&ran, "NO PLAN: the box is blank", 1);
        let ran = ask(&["read", "-"], &spwd.image());
        let why = "standard input: refused 20: there is no plan in the box: the box is blank\n";
        assert_eq!((ran.text(), ran.err.as_str(), ran.status), ("", why, 1));
    }
}

/// Only the three bytes behind the last number may be anything.
#[test]
fn a_byte_that_is_not_0() {
    let spwd = Spwd::new();
    for place in 0..IMAGE_SIZE {
        let answer = blank(&with(&spwd, place, 1));
        if place >= Array::LAST.end() {
            assert_eq!((&answer.line[..], answer.yes), ("BLANK", true), "{place}");
            continue;
        }
        assert!(!answer.yes, "{place}");
        assert!(answer.line.starts_with("NOT BLANK: no "), "{}", answer.line);
        let array = Array::ALL
            .iter()
            .rfind(|array| array.offset <= place)
            .unwrap();
        let first = place - (place - array.offset) % array.width;
        let value = 1_u64 << (8 * (place - first));
        let end = format!(" = {value}, at byte {first}");
        assert!(answer.line.ends_with(&end), "{}", answer.line);
    }
}

#[test]
fn memory_that_no_load_leaves() {
    let spwd = Spwd::new();
    for (place, line) in [
        (
            0,
            "NOT BLANK: no load leaves such memory; the first number that is not 0 is sets[0] = 7, at byte 0",
        ),
        (
            Array::NUMBERS.offset + 4 * 5 + 1,
            "NOT BLANK: no load leaves such memory; the first number that is not 0 is numbers[5] = 1792, at byte 12788",
        ),
        (
            Array::RUN.offset + 8 * 13,
            "NOT BLANK: no plan, but run memory is not 0: no load leaves such memory; \
             the first number that is not 0 is run[13] = 7, at byte 14968",
        ),
        (
            Array::LAST.offset,
            "NOT BLANK: no plan, but a time-code was seen: no load leaves such memory; \
             the first number that is not 0 is last[0] = 7, at byte 15652",
        ),
        (
            Array::WATCHDOG.offset + 12,
            "NOT BLANK: no plan, but the watchdog's numbers are not 0; \
             the first number that is not 0 is watchdog.least = 7, at byte 15644",
        ),
    ] {
        let image = with(&spwd, place, 7);
        says(&ask(&["blank", "-"], &image), line, 1);
        let held = ask(&["holds", "-", "plans/guide.plan"], &image);
        let read = ask(&["read", "-"], &image);
        let what = line.strip_prefix("NOT BLANK: ").unwrap();
        let (line, why) = if place < Array::RUN.offset {
            (format!("DAMAGED: {what}"), what.to_string())
        } else {
            let what = what.strip_prefix("no plan, but ").unwrap();
            let yet = format!("and yet the box is not blank: {what}");
            let why = format!("refused 20: there is no plan in the box: {yet}");
            (format!("NO PLAN: {yet}"), why)
        };
        says(&held, &line, 1);
        let why = format!("standard input: {why}\n");
        assert_eq!((read.text(), &read.err[..], read.status), ("", &why[..], 1));
    }
    let image = Image::new([0xff; IMAGE_SIZE]);
    let line = "NOT BLANK: no load leaves such memory; \
                the first number that is not 0 is sets[0] = 18446744073709551615, at byte 0";
    says(&ask(&["blank", "-"], &image), line, 1);
}

#[test]
fn the_plan_in_the_box() {
    for (plan, spwd, file) in accepted() {
        let image = spwd.image();
        let canonical = held(&spwd);
        let print = fingerprint(&canonical);
        let ran = ask(&["blank", "-"], &image);
        let counts = desk::judge::place(&judge(&file).verdict).unwrap();
        let line = format!("NOT BLANK: plan {print}, {counts}; nothing waits, nothing is live");
        assert_eq!((ran.text(), ran.status), (&format!("{line}\n")[..], 1));
        says(
            &ask(&["holds", "-", &plan], &image),
            &format!("HOLDS {print}"),
            0,
        );
        let ran = ask(&["read", "-"], &image);
        assert_eq!(
            (ran.out, &ran.err[..], ran.status),
            (canonical.clone(), "", 0)
        );
        let text = ask(&["read", "--text", "-"], &image);
        let back = run(COMPILE, &["--text", "-"], &canonical);
        assert_eq!(text, back);
        assert_eq!(file_in(&image), canonical);
    }
}

/// `sha256sum` of a plan that was read shows its fingerprint.
#[test]
fn as_sha256sum_shows_it() {
    let ran = std::process::Command::new("bash")
        .args(["-c", &format!("{COUNTER} read - | sha256sum | head -c 16")])
        .stdin(fs::File::open(image_file("sum.img", &under("guide"))).unwrap())
        .output()
        .unwrap();
    assert_eq!(String::from_utf8(ran.stdout).unwrap(), guide());
}

/// An image of a box in a file.
fn image_file(name: &str, spwd: &Spwd) -> String {
    let path = format!("{}/{name}", env!("CARGO_TARGET_TMPDIR"));
    fs::write(&path, spwd.image().bytes()).unwrap();
    path
}

#[test]
fn waiting_and_live() {
    let mut spwd = under("guide");
    let print = guide();
    let head = format!("NOT BLANK: plan {print}, {GUIDE};");
    let mut records = [0; RECORDS_ROOM];
    let after = |spwd: &mut Spwd, line: &str| {
        says(
            &ask(&["blank", "-"], &spwd.image()),
            &format!("{head} {line}"),
            1,
        );
        let holds = ask(&["holds", "-", "plans/guide.plan"], &spwd.image());
        let since = match line {
            "nothing waits, nothing is live" => String::new(),
            line => format!("; {line}"),
        };
        says(&holds, &format!("HOLDS {print}{since}"), 0);
    };
    spwd.request(1, 20, WRITE, 40).unwrap();
    spwd.request(1, 21, READ, 600).unwrap();
    spwd.request(2, 20, READ, 768).unwrap();
    after(
        &mut spwd,
        "waiting: 2 of initiator 1, 1 of initiator 2; nothing is live",
    );
    spwd.time_code(0, 1_000, &mut records).unwrap();
    after(
        &mut spwd,
        "waiting: 1 of initiator 1, 1 of initiator 2; live: initiator 1 number 0 to target 20",
    );
    spwd.time_code(1, 2_000, &mut records).unwrap();
    after(
        &mut spwd,
        "nothing waits; live: initiator 1 number 1 to target 21, initiator 2 number 0 to target 20",
    );
    spwd.reply(2, 0, 0).unwrap();
    after(
        &mut spwd,
        "nothing waits; live: initiator 1 number 1 to target 21",
    );
    spwd.reply(1, 1, 0).unwrap();
    after(&mut spwd, "nothing waits, nothing is live");
}

/// Whatever boxes do, their memory is never called damaged, and their plan is found in it.
#[test]
fn boxes_at_work() {
    let mut chance = Chance(0x5eed_0019);
    for (plan, mut spwd, file) in accepted() {
        let pairs = pairs(&file);
        let print = fingerprint(&held(&spwd));
        for turn in 0..400 {
            act(&mut chance, &mut spwd, &pairs, turn);
            if turn % 4 != 0 {
                continue;
            }
            let image = spwd.image();
            let line = blank(&image).line;
            assert!(
                line.starts_with(&format!("NOT BLANK: plan {print}, ")),
                "{plan}: {line}"
            );
            assert!(!line.contains("no load"), "{plan}: {line}");
            let answer = holds(&image, &file);
            let running = line.split_once("; ").unwrap().1;
            let since = match running {
                "nothing waits, nothing is live" => format!("HOLDS {print}"),
                _ => format!("HOLDS {print}; {running}"),
            };
            assert_eq!((answer.line, answer.yes), (since, true));
        }
    }
}

/// The pairs of a plan.
fn pairs(file: &[u8]) -> Vec<[u8; 2]> {
    let plan = desk::plan::Plan::of(file);
    let pairs = plan.paths.iter().map(|path| [path.initiator, path.target]);
    pairs.collect()
}

fn act(chance: &mut Chance, spwd: &mut Spwd, pairs: &[[u8; 2]], turn: u32) {
    let [initiator, target] = pairs[chance.below(pairs.len())];
    match chance.below(8) {
        0..4 => {
            let length = [0, 1, 255, 256, 257, 1_000, 4_096][chance.below(7)];
            let _ = spwd.request(initiator, target, chance.byte() & 1, length);
        }
        4 => {
            let number = chance.below(40) as u16;
            let _ = spwd.reply(initiator, number, 0);
        }
        5 if chance.below(20) == 0 => spwd.set_watchdog(Watchdog::from([chance.byte().into(); 5])),
        _ => {
            let byte = if chance.below(30) == 0 {
                chance.byte() & 63
            } else {
                (turn % 64) as u8
            };
            let _ = spwd.time_code(byte, turn * 1_000, &mut [0; RECORDS_ROOM]);
        }
    }
}

/// A byte of plan memory changed: never HOLDS, and the plan is not written. Elsewhere only what no box leaves is called damaged.
#[test]
fn a_loaded_box_with_a_byte_changed() {
    let file = bytes("plans/guide.plan");
    let mut spwd = under("guide");
    spwd.request(1, 20, WRITE, 40).unwrap();
    let mut damaged = 0;
    // Of plan memory every fifth byte; rust/spwd/tests/image.rs has the box's own answer for each.
    let plan = (0..Array::NUMBERS.end()).step_by(5);
    for place in plan.chain(Array::RUN.offset..IMAGE_SIZE) {
        let byte = spwd.image().bytes()[place] ^ 0x40;
        let image = with(&spwd, place, byte);
        let answer = holds(&image, &file);
        let Answer { line, yes } = &answer;
        if place < Array::NUMBERS.end() {
            assert!(!yes && !line.starts_with("HOLDS"), "{place}: {line}");
            let other = line.starts_with("OTHER PLAN: ");
            assert!(
                other || line.starts_with("DAMAGED: no load leaves such memory; "),
                "{line}"
            );
            if place % 3 == 0 {
                assert_eq!(read(&image).is_ok(), other, "{place}");
            }
        } else if *yes {
            let line = line.split("; waiting: ").next().unwrap();
            assert_eq!(line, format!("HOLDS {}", guide()), "{place}");
        } else {
            let start = "DAMAGED: no load leaves such memory: ";
            assert!(line.starts_with(start), "{place}: {line}");
            damaged += 1;
        }
        assert!(!image.is_blank(), "{place}");
    }
    // Of run memory all but two bytes of each next number, and of the request that waits its number and the low byte of its length.
    assert_eq!(damaged, 8 * 96 - 2 * 2 - 3);
}

#[test]
fn run_memory_that_no_box_leaves() {
    let mut spwd = under("guide");
    spwd.request(1, 20, WRITE, 40).unwrap();
    spwd.request(1, 20, WRITE, 40).unwrap();
    spwd.time_code(0, 1_000, &mut [0; RECORDS_ROOM]).unwrap();
    let run = Array::RUN.offset;
    let head = format!(
        "NOT BLANK: plan {}, {GUIDE}; no load leaves such memory:",
        guide()
    );
    for (place, byte, why) in [
        (2, 1, "run[0] = 65538, at byte 14864: initiator 1: this is no number of a transaction"),
        (8, 9, "run[1] = 9, at byte 14872: initiator 1: at most 8 requests wait"),
        (8, 2, "run[3] = 0, at byte 14888: initiator 1: this is no request"),
        (18, 9, "run[2] = 2882304861046112640, at byte 14880: initiator 1: this is no request"),
        (24, 1, "run[3] = 1, at byte 14888: initiator 1: nothing waits here in the line"),
        (82, 9, "run[10] = 2882303761534484864, at byte 14944: initiator 1: this is no live transaction"),
        (88, 2, "run[11] = 258, at byte 14952: initiator 1: this is no time left to the live transaction"),
        (192, 5, "run[24] = 5, at byte 15056: this row is of no initiator"),
        (788, 65, "last[0] = 65, at byte 15652: a time-code has 0 to 63, and one more here"),
    ] {
        let image = with(&spwd, run + place, byte);
        let ran = ask(&["blank", "-"], &image);
        says(&ran, &format!("{head} {why}"), 1);
        let ran = ask(&["holds", "-", "plans/guide.plan"], &image);
        says(&ran, &format!("DAMAGED: no load leaves such memory: {why}"), 1);
        let ran = ask(&["read", "-"], &image);
        let why = format!("standard input: no load leaves such memory: {why}\n");
        assert_eq!((ran.text(), &ran.err[..], ran.status), ("", &why[..], 1));
    }
}

/// The first difference, in the order of a canonical file.
#[test]
fn another_plan() {
    let image = under("guide-times").image();
    let text = fs::read_to_string(root().join("plans/guide-times.plan")).unwrap();
    let box_has = fingerprint(&held(&under("guide-times")));
    for (from, to, first) in [
        (
            "node 21\n",
            "node 21\nnode 22\n",
            "device 22: only in the file",
        ),
        ("link 3 21 10\n", "link 3 10 21\n", ""),
        (
            "link 3 21 10\n",
            "link 3 21 10\nlink 4 1 10\n",
            "link 4: only in the file",
        ),
        (
            "link 3 21 10\n",
            "link 3 21 10\nlink 4 20 21\n",
            "link 4: only in the file",
        ),
        (
            "entry 1 1 3 21",
            "entry 1 1 2 21",
            "entry of initiator 1 at slot 1: span 3 in the box, span 2 in the file",
        ),
        (
            "entry 1 0 1 20 21",
            "entry 1 0 1 21",
            "entry of initiator 1 at slot 0: targets 20 21 in the box, target 21 in the file",
        ),
        (
            "entry 1 1 3 21",
            "entry 1 4 3 21",
            "entry of initiator 1 at slot 1: only in the box",
        ),
        (
            "entry 2 62 2 20",
            "entry 2 62 2 20\nentry 2 60 1 20",
            "entry of initiator 2 at slot 60: only in the file",
        ),
        (
            "intervals 900",
            "intervals 901",
            "interval: least 900 in the box, least 901 in the file",
        ),
        (
            " 1100\n",
            " 1101\n",
            "interval: greatest 1100 in the box, greatest 1101 in the file",
        ),
    ] {
        assert!(text.contains(from), "{from}");
        let other = text.replacen(from, to, 1);
        let file = desk::form::compile(other.as_bytes()).unwrap().bytes;
        let judged = judge(&file);
        assert!(judged.verdict.is_accepted(), "{to}: {}", judged.verdict);
        let file_is = fingerprint(&judged.held);
        let answer = holds(&image, &file);
        let line = match first {
            "" => format!("HOLDS {box_has}"),
            _ => format!(
                "OTHER PLAN: the box has {box_has}, the file is {file_is}; first difference: {first}"
            ),
        };
        assert_eq!((answer.line, answer.yes), (line, first.is_empty()), "{to}");
    }
}

/// Kinds of devices, ends of links, ways, slot times and replies.
#[test]
fn another_network() {
    let plan = |routers: &str, four: &str, path: &str, end: &str| {
        let text = format!(
            "node 1\nnode 2\n{routers}\nlink 0 1 10\nlink 1 10 2\nlink 2 1 11\nlink 3 11 2\n{four}\n\
             path 1 2 {path}\nentry 1 0 1 2\nintervals 90 110\n{end}\n"
        );
        desk::form::compile(text.as_bytes()).unwrap().bytes
    };
    let routers = "router 10\nrouter 11";
    let times = "times 200 1 2 3 4 5000";
    let reply = "reply 1 2 1 0";
    let of_box = |end| plan(routers, "link 4 10 11", "0 1", end);
    for (of_box, of_file, first) in [
        (
            plan("router 10\nnode 11", "", "0 1", ""),
            plan(routers, "", "0 1", ""),
            "device 11: a node in the box, a router in the file",
        ),
        (
            of_box(""),
            plan(routers, "link 4 1 2", "0 1", ""),
            "link 4: joins devices 10 and 11 in the box, joins devices 1 and 2 in the file",
        ),
        (of_box(""), plan(routers, "", "0 1", ""), "link 4: only in the box"),
        (
            of_box(""),
            plan(routers, "link 4 10 11", "2 4 1", ""),
            "path from initiator 1 to target 2: over links 0 1 in the box, over links 2 4 1 in the file",
        ),
        (of_box(times), of_box(""), "slot times: only in the box"),
        (of_box(""), of_box(times), "slot times: only in the file"),
        (
            of_box(times),
            of_box("times 100 1 2 3 4 5000"),
            "slot times: 200 Mbit/s in the box, 100 Mbit/s in the file",
        ),
        (
            of_box(times),
            of_box("times 200 1 2 3 5 5000"),
            "slot times: latency g 4 ns in the box, latency g 5 ns in the file",
        ),
        (
            of_box(times),
            of_box("times 200 1 2 3 4 5001"),
            "slot times: slot length 5000 ns in the box, slot length 5001 ns in the file",
        ),
        (
            of_box(reply),
            of_box(""),
            "reply from target 2 back to initiator 1: only in the box",
        ),
        (
            of_box(reply),
            of_box("reply 1 2 3 2"),
            "reply from target 2 back to initiator 1: over links 1 0 in the box, over links 3 2 in the file",
        ),
    ] {
        let boxed = judge(&of_box);
        let file = judge(&of_file);
        assert!(boxed.verdict.is_accepted() && file.verdict.is_accepted(), "{first}");
        let answer = holds(&boxed.desk.image(), &of_file);
        let (one, other) = (fingerprint(&boxed.held), fingerprint(&file.held));
        let line =
            format!("OTHER PLAN: the box has {one}, the file is {other}; first difference: {first}");
        assert_eq!((answer.line, answer.yes), (line, false));
    }
}

/// Every two plans of the project differ, and each difference has words.
#[test]
fn every_plan_against_every_other() {
    let all = accepted();
    for (_, spwd, _) in &all {
        for (plan, other, file) in &all {
            let answer = holds(&spwd.image(), file);
            let same = held(spwd) == held(other);
            assert_eq!(answer.yes, same, "{plan}: {}", answer.line);
            let words = if same {
                "HOLDS "
            } else {
                "; first difference: "
            };
            assert!(answer.line.contains(words), "{}", answer.line);
            assert!(!answer.line.contains("none was found"), "{}", answer.line);
        }
    }
}

/// A plan that a box refuses is in no box; a text with lines that are no item is not asked about.
#[test]
fn no_plan_to_compare_with() {
    let image = under("guide").image();
    let ran = ask(&["holds", "-", "plans/sample-first-clash.plan"], &image);
    let line =
        "REFUSED 14 0 1 2 3: no box holds this file: in this slot both may be using this link, \
                for a command or for a reply (slot 0, initiators 1 and 2, link 3)";
    says(&ran, line, 1);
    let ran = ask(
        &["holds", "-", "rust/desk/tests/plans/complaints.plan"],
        &image,
    );
    assert_eq!((ran.text(), ran.status), ("", 2));
    let first = "rust/desk/tests/plans/complaints.plan:";
    assert!(ran.err.starts_with(first), "{}", ran.err);
    // The same image in the place of the plan.
    let path = image_file("plan.img", &under("guide"));
    let ran = ask(&["holds", "-", &path], &image);
    assert!(
        ran.text()
            .starts_with("REFUSED 5 0: no box holds this file: "),
        "{}",
        ran.text()
    );
    let hint = "this looks like an image of a box, 15656 bytes: spwd-counter says what is in it";
    assert_eq!((ran.err, ran.status), (format!("{path}: {hint}\n"), 1));
}

/// In text or in bytes, whatever the name is; and the plan from standard input.
#[test]
fn forms_of_the_plan() {
    let path = image_file("forms.img", &under("guide"));
    let text = fs::read(root().join("plans/guide.plan")).unwrap();
    let line = format!("HOLDS {}", guide());
    for input in [text, bytes("plans/guide.plan"), held(&under("guide"))] {
        says(&run(COUNTER, &["holds", &path, "-"], &input), &line, 0);
        let file = format!("{}/forms.plan", env!("CARGO_TARGET_TMPDIR"));
        fs::write(&file, &input).unwrap();
        says(&run(COUNTER, &["holds", &path, &file], b""), &line, 0);
        let file = format!("{}/forms.bin", env!("CARGO_TARGET_TMPDIR"));
        fs::write(&file, &input).unwrap();
        says(&run(COUNTER, &["holds", &path, &file], b""), &line, 0);
    }
}

fn trouble(words: &[&str], input: &[u8], said: &str) {
    let ran = run(COUNTER, words, input);
    let said = format!("spwd-counter: {said}\n");
    assert_eq!(
        (ran.text(), &ran.err[..], ran.status),
        ("", &said[..], 3),
        "{words:?}"
    );
}

/// What is no image is never blank, and gets no answer.
#[test]
fn no_image() {
    let zeros = vec![0; IMAGE_SIZE + 1];
    let guide = bytes("plans/guide.plan");
    let right = "and an image of a box has 15656";
    for words in [
        &["blank", "-"][..],
        &["read", "-"],
        &["holds", "-", "plans/guide.plan"],
    ] {
        let cut = format!("standard input: 15655 bytes, {right}, so it is cut off");
        trouble(words, &zeros[..IMAGE_SIZE - 1], &cut);
        trouble(
            words,
            &zeros,
            &format!("standard input: 15657 bytes, {right}"),
        );
        let empty = format!("standard input: 0 bytes, {right}, so it is cut off");
        trouble(words, b"", &empty);
        let plan = format!(
            "standard input: 110 bytes, {right}, so it is cut off; this looks like a plan file"
        );
        trouble(words, &guide, &plan);
        let text = format!(
            "standard input: 7 bytes, {right}, so it is cut off; this looks like a plan in text"
        );
        trouble(words, b"node 1\n", &text);
        let much = format!("standard input: more than 16777216 bytes, {right}");
        trouble(words, &vec![0; (16 << 20) + 1], &much);
        let mut words = words.to_vec();
        words[1] = "no-such-file";
        trouble(
            &words,
            b"",
            "no-such-file: No such file or directory (os error 2)",
        );
        words[1] = "plans";
        trouble(&words, b"", "plans: Is a directory (os error 21)");
    }
    let path = image_file("there.img", &Spwd::new());
    trouble(
        &["holds", &path, "plans"],
        b"",
        "plans: Is a directory (os error 21)",
    );
    trouble(
        &["holds", &path, "none"],
        b"",
        "none: No such file or directory (os error 2)",
    );
    let long = "standard input: longer than 16777216 bytes: this is no plan";
    trouble(&["holds", &path, "-"], &vec![0; (16 << 20) + 1], long);
}

#[test]
fn wrong_words() {
    for (words, said) in [
        (&[][..], "blank, holds or read is missing"),
        (&["blank"], "an image is missing"),
        (&["read", "--text"], "an image is missing"),
        (&["holds"], "an image and a plan are missing"),
        (&["holds", "a"], "a plan is missing"),
        (&["blank", "a", "b"], "b is one word too many"),
        (&["read", "a", "b", "c"], "b is one word too many"),
        (&["holds", "a", "b", "c", "d"], "c is one word too many"),
        (
            &["holds", "-", "-"],
            "image and plan cannot both be standard input",
        ),
        (&["blank", "--text", "a"], "--text goes with read"),
        (&["holds", "--text", "a", "b"], "--text goes with read"),
        (&["lamp", "a"], "'lamp' is none of blank, holds and read"),
        (&["blank", "--bytes", "a"], "there is no option --bytes"),
    ] {
        trouble(words, b"", &format!("{said}; see spwd-counter --help"));
    }
}

/// The answers that docs/GUIDE.md shows.
#[test]
fn as_the_guide_has_them() {
    let guide = fs::read_to_string(root().join("docs/GUIDE.md")).unwrap();
    let file = bytes("plans/guide.plan");
    let mut spwd = under("guide");
    spwd.request(1, 20, WRITE, 40).unwrap();
    let text = fs::read_to_string(root().join("plans/guide.plan")).unwrap();
    let other = text.replace("entry 1 1 3 21", "entry 1 1 2 21");
    let other = judge(&desk::form::compile(other.as_bytes()).unwrap().bytes);
    assert!(other.verdict.is_accepted());
    for answer in [
        blank(&spwd.image()),
        holds(&spwd.image(), &file),
        holds(&under("guide").image(), &file),
        holds(&other.desk.image(), &file),
    ] {
        assert!(
            guide.contains(&format!("\n    {}\n", answer.line)),
            "{}",
            answer.line
        );
    }
}

/// Numbers below 64 in an order by chance.
fn shuffled(chance: &mut Chance) -> Vec<u8> {
    let mut numbers: Vec<_> = (0..64).collect();
    for place in 1..64 {
        numbers.swap(place, chance.below(place + 1));
    }
    numbers
}

/// Nodes on two routers, which are joined by two links: a node of an even place is on the first router.
struct Network {
    devices: Vec<u8>,
    links: Vec<u8>,
    nodes: usize,
}

/// The places of the routers, and of the links between them.
const ONE: usize = 62;
const OTHER: usize = 63;

impl Network {
    fn by_chance(chance: &mut Chance) -> Self {
        let (devices, links) = (shuffled(chance), shuffled(chance));
        let nodes = 2 + chance.below(40);
        Self {
            devices,
            links,
            nodes,
        }
    }

    fn lines(&self) -> String {
        let (devices, links) = (&self.devices, &self.links);
        let [one, other] = [ONE, OTHER].map(|place| devices[place]);
        let [there, back] = [ONE, OTHER].map(|place| links[place]);
        let nodes = (0..self.nodes).map(|node| format!("node {}\n", devices[node]));
        let ends = (0..self.nodes).map(|node| {
            let router = if node % 2 == 0 { one } else { other };
            format!("link {} {} {router}\n", links[node], devices[node])
        });
        format!("router {one}\nrouter {other}\n")
            + &nodes.collect::<String>()
            + &format!("link {there} {one} {other}\nlink {back} {other} {one}\n")
            + &ends.collect::<String>()
    }

    /// The links from one node to another, over one of the links between the routers if need be.
    fn way(&self, from: usize, to: usize, between: usize) -> String {
        let links = &self.links;
        match from % 2 == to % 2 {
            true => format!("{} {}", links[from], links[to]),
            false => format!("{} {} {}", links[from], links[between], links[to]),
        }
    }
}

/// A plan that a box takes: no two entries cover a slot. Replies come home over the second link, if they have a way of their own.
fn plan_by_chance(chance: &mut Chance) -> String {
    let network = Network::by_chance(chance);
    let (mut paths, mut replies) = (String::new(), String::new());
    let mut targets = vec![Vec::new(); 1 + chance.below(network.nodes.min(8))];
    for (initiator, targets) in targets.iter_mut().enumerate() {
        for target in (0..network.nodes)
            .filter(|&target| target != initiator)
            .take(16)
        {
            let pair = format!("{} {}", network.devices[initiator], network.devices[target]);
            if targets.is_empty() || chance.below(3) > 0 {
                paths += &format!("path {pair} {}\n", network.way(initiator, target, ONE));
                targets.push(network.devices[target]);
                if chance.below(2) == 0 {
                    replies += &format!("reply {pair} {}\n", network.way(target, initiator, OTHER));
                }
            }
        }
    }
    network.lines() + &paths + &entries_by_chance(chance, &network, &targets) + &replies
}

/// Entries, intervals and perhaps slot times.
fn entries_by_chance(chance: &mut Chance, network: &Network, targets: &[Vec<u8>]) -> String {
    let mut text = String::new();
    let mut slot = chance.below(8);
    while slot < 48 {
        let (initiator, span) = (chance.below(targets.len()), 1 + chance.below(16));
        let several = 1 + chance.below(targets[initiator].len());
        let several = targets[initiator][..several].iter().rev();
        let several: Vec<_> = several.map(u8::to_string).collect();
        let (device, several) = (network.devices[initiator], several.join(" "));
        text += &format!("entry {device} {slot} {span} {several}\n");
        slot += span + chance.below(5);
    }
    text += &format!(
        "intervals {} {}\n",
        chance.below(100),
        100 + chance.below(1 << 30)
    );
    if chance.below(2) == 0 {
        text += &format!("times {}", 2 + chance.below(399));
        (0..5).for_each(|_| text += &format!(" {}", chance.below(1_000_001)));
        text.push('\n');
    }
    text
}

/// Whatever plan a load leaves in memory is read back from it.
#[test]
fn plans_by_chance() {
    let mut chance = Chance(0x5eed_0022);
    for _ in 0..300 {
        let text = plan_by_chance(&mut chance);
        let judged = judge(&desk::form::compile(text.as_bytes()).unwrap().bytes);
        assert!(judged.verdict.is_accepted(), "{}\n{text}", judged.verdict);
        let image = judged.desk.image();
        assert_eq!(read(&image), Ok(judged.held.clone()), "{text}");
        let line = format!("HOLDS {}", fingerprint(&judged.held));
        assert_eq!(holds(&image, &judged.held), Answer { line, yes: true });
    }
}

/// Memory by chance: all of it, or some bytes of a box at work. Every question is answered, and never with a yes that the box did not give.
#[test]
fn memory_by_chance() {
    let mut chance = Chance(0x5eed_0023);
    let file = bytes("plans/guide-times.plan");
    let pairs = pairs(&file);
    let mut spwd = under("guide-times");
    for turn in 0..200 {
        act(&mut chance, &mut spwd, &pairs, turn);
        let mut bytes = *spwd.image().bytes();
        if turn % 4 == 0 {
            bytes.fill_with(|| chance.byte());
        }
        for _ in 0..chance.below(4) {
            bytes[chance.below(IMAGE_SIZE)] = chance.byte();
        }
        let image = Image::new(bytes);
        let holds_it = image.holds(&file, &mut spwd::Plan::new());
        let answer = holds(&image, &file);
        assert!(!answer.yes || holds_it, "{}", answer.line);
        assert_eq!(blank(&image).yes, image.is_blank());
        if let Ok(written) = read(&image) {
            assert!(image.holds(&written, &mut spwd::Plan::new()), "{turn}");
        }
    }
}
