//! `spwd-sheet`: the sheet by itself and that of a plan, and that its lengths are those that the box permits.

mod common;

use common::{bytes, expected, plans, root, run, Chance, Ran, COMPILE, SHEET, SHOW};
use desk::fields::{Path, Times};
use desk::form::{compile, times};
use desk::judge::judge;
use desk::plan::Plan;
use desk::sheet::{of_plan, with_times};
use desk::times::{longest, never, spans};
use spwd::{Latencies, Refusal, Spwd, LATENCY_MOST, LENGTH_MOST, READ, SLOT_LENGTH_MOST};
use std::collections::BTreeSet;
use std::fmt::Write;

const TIMES: [&str; 7] = ["--times", "200", "5000", "5000", "5000", "5000", "30000"];

#[track_caller]
fn prints(words: &[&str], stored: &str, status: i32) {
    let ran = run(SHEET, words, b"");
    assert_eq!(ran.text(), expected(stored), "{words:?}");
    assert_eq!((ran.err.as_str(), ran.status), ("", status), "{words:?}");
}

/// The sheet by itself over these routers, at this rate, with 5,000 for each latency.
fn by_itself(routers: &str, rate: &str, lengths: &[&str]) -> Ran {
    let words = ["--routers", routers, "--rate", rate, "--latencies"];
    let words = [&words[..], &["5000"; 4], lengths].concat();
    run(SHEET, &words, b"")
}

/// T-01's sample, and lengths for a second block of columns.
#[test]
fn term_by_term() {
    let ran = by_itself("4", "200", &["256"]);
    assert_eq!(ran.text(), expected("sheet/sample.txt"));
    assert_eq!((ran.err.as_str(), ran.status), ("", 0));
    let ran = by_itself("7", "3", &["0", "1", "64", "1024", "4096"]);
    assert_eq!(ran.text(), expected("sheet/five-lengths.txt"));
    assert_eq!((ran.err.as_str(), ran.status), ("", 0));
}

/// Of a reply with a way of its own, and one with as many routers as the command.
#[test]
fn two_ways() {
    let alone = |reply: &str, lengths: &[&str]| {
        by_itself("1", "200", &[&["--reply-routers", reply], lengths].concat())
    };
    let ran = alone("5", &["256", "0"]);
    assert_eq!(ran.text(), expected("sheet/two-ways.txt"));
    assert_eq!((ran.err.as_str(), ran.status), ("", 0));
    assert_eq!(alone("1", &["256"]), by_itself("1", "200", &["256"]));
    let refused = "refused 6: a number is out of range\n";
    let back = "    routers back 8 is out of range: right is 0 to 7\n";
    let ran = alone("8", &["256"]);
    assert_eq!(ran.text(), format!("{refused}{back}"));
    assert_eq!((ran.err.as_str(), ran.status), ("", 1));
    let ran = by_itself("255", "200", &["--reply-routers", "8", "256"]);
    let out = "    routers out 255 is out of range: right is 0 to 7\n";
    assert_eq!(ran.text(), format!("{refused}{out}{back}"));
    assert_eq!((ran.err.as_str(), ran.status), ("", 1));
}

#[test]
fn out_of_range() {
    let words = "--routers 8 --rate 1 --latencies 1000001 1000002 1000003 4294967295 256 4097";
    let words: Vec<_> = words.split(' ').collect();
    prints(&words, "sheet/out-of-range.txt", 1);
    let refused = "refused 6: a number is out of range\n";
    for (routers, rate, length, why) in [
        (
            "8",
            "200",
            "0",
            "routers 8 is out of range: right is 0 to 7",
        ),
        (
            "7",
            "401",
            "0",
            "rate 401 is out of range: right is 2 to 400",
        ),
        (
            "7",
            "400",
            "4097",
            "length 4097 is out of range: right is 0 to 4096",
        ),
    ] {
        let ran = by_itself(routers, rate, &["0", length]);
        assert_eq!(ran.text(), format!("{refused}    {why}\n"));
        assert_eq!((ran.err.as_str(), ran.status), ("", 1));
    }
    assert_eq!(by_itself("7", "400", &["4096"]).status, 0);
    assert_eq!(by_itself("0", "2", &["0"]).status, 0);
}

/// Plans with slot times, some without, and times tried on them: too short a slot, a rate for which 1 ms is too short.
#[test]
fn plans_of_the_project() {
    prints(&["plans/times.plan"], "sheet/times.txt", 0);
    prints(&["plans/times-never.plan"], "sheet/times-never.txt", 0);
    prints(&["plans/guide.plan"], "sheet/without-times.txt", 0);
    prints(&["plans/smallest.plan"], "sheet/smallest.txt", 0);
    let given = |plan| [&TIMES[..], &[plan]].concat();
    prints(&given("plans/astro-h.plan"), "sheet/given-astro-h.txt", 0);
    prints(&given("plans/times.plan"), "sheet/given-times.txt", 0);
    prints(&given("plans/smallest.plan"), "sheet/given-smallest.txt", 0);
    prints(&["plans/guide-reply.plan"], "sheet/guide-reply.txt", 0);
    prints(
        &given("plans/guide-reply.plan"),
        "sheet/given-guide-reply.txt",
        0,
    );
    prints(
        &["rust/desk/tests/plans/replies.plan"],
        "sheet/replies.txt",
        0,
    );
    let slow = "--times 2 5000 5000 5000 5000 1000000 plans/guide.plan";
    prints(&slow.split(' ').collect::<Vec<_>>(), "sheet/slow.txt", 0);
    let wrong = "--times 401 0 1000001 0 0 1000001 plans/times.plan";
    prints(
        &wrong.split(' ').collect::<Vec<_>>(),
        "sheet/given-wrong.txt",
        1,
    );
}

/// A refused plan gets the page that `spwd-show` has for it, whatever times are tried on it.
#[test]
fn refused_plans() {
    let mut count = 0;
    for plan in [plans("plans"), plans("rust/desk/tests/plans")].concat() {
        let shown = run(SHOW, &[&plan], b"");
        if shown.status != 0 {
            assert_eq!(run(SHEET, &[&plan], b""), shown, "{plan}");
            assert_eq!(
                run(SHEET, &[&TIMES[..], &[&plan]].concat(), b""),
                shown,
                "{plan}"
            );
            count += 1;
        }
    }
    assert!(count > 20, "{count}");
}

/// A plan with no entry has paths whose times could be said, but it is no plan for the box.
#[test]
fn no_entry() {
    for name in ["no-entry", "no-entry-times", "sample-intervals"] {
        let (plan, page) = (format!("plans/{name}.plan"), format!("show/{name}.txt"));
        prints(&[&plan], &page, 1);
        prints(&[&TIMES[..], &[&plan]].concat(), &page, 1);
    }
}

/// From a file or standard input, as text or bytes, as for `spwd-show`.
#[test]
fn forms() {
    let text = std::fs::read(root().join("plans/times.plan")).unwrap();
    let page = expected("sheet/times.txt");
    assert_eq!(run(SHEET, &["--text"], &text).text(), page);
    assert_eq!(run(SHEET, &["-", "--text"], &text).text(), page);
    assert_eq!(run(SHEET, &[], &bytes("plans/times.plan")).text(), page);
    let ran = run(SHEET, &["--bytes", "plans/times.plan"], b"");
    assert!(ran.text().starts_with("REFUSED 2 0\n"), "{}", ran.text());
    assert_eq!(ran.status, 1);
}

/// A plan with its own times, given once more, has the sheet that it had.
#[test]
fn its_own_times_given() {
    let words = "--times 200 5000 5000 5000 5000 39450 plans/times.plan";
    let ran = run(SHEET, &words.split(' ').collect::<Vec<_>>(), b"");
    let given = "  given with --times, not by the plan\n";
    assert_eq!(ran.text().replace(given, ""), expected("sheet/times.txt"));
    assert!(ran.text().contains(given));
}

/// The line that is suggested, put into the plan: the box accepts it, and the sheet suggests the same.
#[test]
fn the_suggestion_taken() {
    let text = std::fs::read_to_string(root().join("plans/guide.plan")).unwrap();
    let ran = run(SHEET, &[&TIMES[..], &["plans/guide.plan"]].concat(), b"");
    let suggested = |page: &str| {
        let line = page.lines().last().unwrap();
        line.strip_prefix("  as a line of its text: ")
            .unwrap()
            .to_string()
    };
    let line = suggested(ran.text());
    assert_eq!(line, "times 200 5000 5000 5000 5000 35550");
    let text = format!("{text}{line}\n");
    assert_eq!(run(COMPILE, &["-"], text.as_bytes()).status, 0);
    let ran = run(SHEET, &["--text"], text.as_bytes());
    assert_eq!(suggested(ran.text()), line);
    assert!(
        ran.text().contains("\n  1 to 20: span 1: 256\n"),
        "{}",
        ran.text()
    );
}

/// A slot length of 1 ms can be given, and one ns more cannot.
#[test]
fn the_longest_slot() {
    for (a, last) in [
        (
            "984450",
            "  as a line of its text: times 200 984450 0 0 0 1000000\n",
        ),
        (
            "984451",
            "  it cannot be given: 1000000 ns are the most (longer spans, shorter requests)\n",
        ),
    ] {
        let words = ["--times", "200", a, "0", "0", "0", "0", "plans/guide.plan"];
        let ran = run(SHEET, &words, b"");
        assert!(ran.text().ends_with(last), "{}", ran.text());
        assert_eq!((ran.err.as_str(), ran.status), ("", 0));
    }
}

/// Times by chance, each number often at a bound, and slot lengths about as long as transactions are.
fn by_chance(chance: &mut Chance) -> Times {
    let latency = |chance: &mut Chance| match chance.below(4) {
        0 => 0,
        1 => LATENCY_MOST,
        _ => chance.below(20_000) as u32,
    };
    let rate = [2, 399, 400, 2 + chance.below(399)][chance.below(4)];
    let latencies = Latencies {
        a: latency(chance),
        d: latency(chance),
        f: latency(chance),
        g: latency(chance),
    };
    let sum = latencies.a + latencies.d + latencies.f + latencies.g;
    let slot_length = match chance.below(4) {
        0 => [0, SLOT_LENGTH_MOST][chance.below(2)],
        1 => chance.below(1_000_001) as u32,
        _ => {
            (sum / (1 + chance.below(8) as u32) + chance.below(60_000) as u32).min(SLOT_LENGTH_MOST)
        }
    };
    Times {
        offset: 0,
        rate: rate as u16,
        latencies,
        slot_length,
    }
}

/// The bytes of a field 06.
fn field(of: &Times) -> Vec<u8> {
    let line = desk::text::times_line(of);
    let words: Vec<_> = line.split(' ').skip(1).collect();
    times(&words).unwrap()
}

/// Initiator 0 with a target behind each number of routers from none to seven; one entry of this span has all eight. Behind further routers
/// 21 to 27 the replies come home: that of the first target through so many, each later one through one more, and none after seven.
fn every_path(span: u8, home: Option<u8>) -> Vec<u8> {
    let mut text = String::from("node 0\n");
    (10..18).for_each(|target| writeln!(text, "node {target}").unwrap());
    (1..8).for_each(|router| writeln!(text, "router {router}").unwrap());
    (1..8).for_each(|router| writeln!(text, "link {router} {} {router}", router - 1).unwrap());
    (0..8).for_each(|router| writeln!(text, "link 1{router} {router} 1{router}").unwrap());
    for routers in 0..8 {
        let chain: String = (1..=routers).map(|link| format!(" {link}")).collect();
        writeln!(text, "path 0 1{routers}{chain} 1{routers}").unwrap();
    }
    writeln!(
        text,
        "entry 0 0 {span} 10 11 12 13 14 15 16 17\nintervals 90 110"
    )
    .unwrap();
    let file = compile(text.as_bytes()).unwrap().bytes;
    home.map_or(file.clone(), |first| with_ways_home(&file, first))
}

/// The plan of `every_path` with these replies.
fn with_ways_home(file: &[u8], first: u8) -> Vec<u8> {
    let text = desk::text::text_of(file).join("\n");
    let (devices, rest) = text.split_once("\nlink ").unwrap();
    let (links, rest) = rest.split_once("\npath ").unwrap();
    let mut text = format!("{devices}\n");
    (21..28).for_each(|router| writeln!(text, "router {router}").unwrap());
    writeln!(text, "link {links}\nlink 21 0 21").unwrap();
    (22..28).for_each(|router| writeln!(text, "link {router} {} {router}", router - 1).unwrap());
    let mut replies = String::new();
    for target in 0..8 {
        let routers = (first + target) % 8;
        let last = if routers == 0 { 0 } else { 20 + routers };
        writeln!(text, "link 3{target} {last} 1{target}").unwrap();
        let chain: String = (1..=routers)
            .rev()
            .map(|router| format!(" 2{router}"))
            .collect();
        writeln!(replies, "reply 0 1{target} 3{target}{chain}").unwrap();
    }
    write!(text, "path {rest}\n{replies}").unwrap();
    compile(text.as_bytes()).unwrap().bytes
}

/// Whether the box takes a request of 0 to a target.
fn permits(spwd: &Spwd, path: &Path, length: u16) -> bool {
    match spwd.clone().request(0, path.target, READ, length) {
        Ok(_) => true,
        Err(Refusal::NOT_PERMITTED | Refusal::LENGTH_OVER_MOST) => false,
        Err(refusal) => panic!("{refusal}"),
    }
}

/// The largest lengths of the sheet are those of the box, for every number of routers and every span, with replies on the links of the
/// command and on ways of their own, through any number of routers.
#[test]
fn as_the_box_permits() {
    let mut chance = Chance(0x5eed_0005);
    let (mut none, mut some, mut all) = (0, 0, 0);
    let mut ways = BTreeSet::new();
    for round in 0..1_600 {
        let span = 1 + (round % 16) as u8;
        let of = by_chance(&mut chance);
        let home = (round % 2 == 1).then(|| chance.below(8) as u8);
        let file = with_times(&every_path(span, home), &field(&of));
        let mut spwd = Spwd::new();
        spwd.load(&file).unwrap();
        let plan = Plan::of(&file);
        let times = plan.times.unwrap();
        assert_eq!(
            (times.rate, times.latencies, times.slot_length),
            (of.rate, of.latencies, of.slot_length)
        );
        let never: Vec<_> = never(&plan).iter().map(|never| never.target).collect();
        for path in &plan.paths {
            let routers = plan.routers(path);
            ways.insert((routers.command, routers.reply));
            let largest = times.largest(routers, span);
            let more = largest.map_or(0, |length| length + 1);
            assert!(
                largest.is_none_or(|length| permits(&spwd, path, length)),
                "{of:?} {path}"
            );
            assert!(!permits(&spwd, path, more), "{of:?} {path}");
            assert_eq!(never.contains(&path.target), largest.is_none());
            match largest {
                None => none += 1,
                Some(LENGTH_MOST) => all += 1,
                Some(_) => some += 1,
            }
        }
    }
    assert!(none > 500 && some > 500 && all > 500, "{none} {some} {all}");
    assert_eq!(ways.len(), 64, "{ways:?}");
}

/// With the slot length that is suggested every entry permits 256 bytes for each slot of its span, and with one ns less not every one.
#[test]
fn the_least_slot_length() {
    let mut chance = Chance(0x5eed_0006);
    let mut given = 0;
    for plan in plans("plans") {
        let held = judge(&bytes(&plan)).held;
        let plan = Plan::of(&held);
        for _ in 0..20 {
            let of = by_chance(&mut chance);
            let Some(longest) = longest(&plan, &of) else {
                assert!(plan.entries.is_empty());
                continue;
            };
            let enough = |slot_length| {
                let times = Times { slot_length, ..of };
                let lengths = |path: &Path| {
                    let enough = |span: u8| {
                        times.largest(plan.routers(path), span) >= Some(256 * u16::from(span))
                    };
                    spans(&plan, path).into_iter().all(enough)
                };
                plan.paths.iter().all(lengths)
            };
            assert!(enough(longest.slot_length));
            assert!(!enough(longest.slot_length - 1));
            given += usize::from(longest.slot_length <= SLOT_LENGTH_MOST);
        }
    }
    assert!(given > 20, "{given}");
}

/// No line is wider than 80 columns.
#[test]
fn width() {
    let most = LATENCY_MOST;
    let latencies = Latencies {
        a: most,
        d: most,
        f: most,
        g: most,
    };
    for plan in plans("plans") {
        let held = judge(&bytes(&plan)).held;
        if held.is_empty() {
            continue;
        }
        let own = of_plan(&Plan::of(&held), true);
        assert!(own.iter().all(|line| line.len() <= 80), "{plan}: {own:?}");
        for (rate, slot_length) in [(2, SLOT_LENGTH_MOST), (400, SLOT_LENGTH_MOST), (400, 0)] {
            let times = Times {
                offset: 0,
                rate,
                latencies,
                slot_length,
            };
            let file = with_times(&held, &field(&times));
            let lines = of_plan(&Plan::of(&file), false);
            let widest = lines.iter().map(String::len).max();
            assert!(widest <= Some(80), "{plan}: {lines:?}");
        }
    }
}
