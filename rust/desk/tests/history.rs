//! `spwd-panel --page`: a run drawn over time-codes. Each mark stands once, and as many as the panel's words say.

mod common;

use common::xml::{page as read, Node};
use common::{bytes, root, run, Chance, PANEL};
use desk::happening::Happening;
use desk::history::gather::Gathered;
use desk::history::page::page;
use desk::html::head::Given;
use desk::html::svg::PAPER;
use desk::panel::Panel;
use desk::streams::Status;
use spwd::Record;
use std::collections::BTreeMap;
use std::fs;

fn hex(plan: &str) -> String {
    let digits = bytes(plan);
    digits.iter().map(|byte| format!("{byte:02x}")).collect()
}

/// The page of a script, read.
fn drawn(script: &str) -> Node {
    let mut panel = Panel::new(false);
    let mut gathered = Gathered::new();
    for line in script.lines() {
        panel
            .happen(line.as_bytes())
            .into_iter()
            .for_each(|happening| gathered.add(happening));
    }
    let text = page("a script", &gathered.chart(), &Given::default());
    read(&text).unwrap_or_else(|wrong| panic!("{wrong}"))
}

/// What the panel says of a script: of each line its own lines.
fn told(script: &str) -> Vec<Vec<String>> {
    let mut panel = Panel::new(false);
    let lines = script.lines();
    lines.map(|line| panel.play(line.as_bytes())).collect()
}

/// The words behind a word, up to the next mark.
fn behind<'a>(line: &'a str, word: &str) -> &'a str {
    let (_, rest) = line.split_once(word).unwrap_or_default();
    let end = rest.find(|letter: char| !letter.is_ascii_digit());
    &rest[..end.unwrap_or(rest.len())]
}

fn key(line: &str) -> String {
    let (initiator, number) = (behind(line, "initiator "), behind(line, "number "));
    format!("{initiator}-{number}")
}

/// What a panel's line is about: an attribute of the page and the transaction. Nothing where nothing is drawn for it.
fn meant(line: &str) -> Option<(&'static str, String)> {
    let is = |words: &str| line.contains(words);
    let slot = line.starts_with("slot ");
    Some(match line {
        _ if slot && is(" starts number ") => ("data-start", key(line)),
        _ if slot && is(": late: initiator ") => ("data-late", key(line)),
        _ if slot && is(": time-code early") => ("data-early", String::new()),
        _ if slot && is(": time-code late") => ("data-late-time-code", String::new()),
        _ if slot && is(": time-code out of") => ("data-out-of-sequence", String::new()),
        _ if is(": ended, status ") => ("data-reply", key(line)),
        _ if line.starts_with("request: ") && is(": waiting") => ("data-request", key(line)),
        _ if line.starts_with("clock ") && is(": the next time-code is late") => {
            ("data-reported", String::new())
        }
        _ => return None,
    })
}

/// By attribute, the transactions in their order; those of time-codes have none. Under a plan alone, since else nothing is drawn.
type Marks = BTreeMap<&'static str, Vec<String>>;

const ATTRIBUTES: [&str; 9] = [
    "data-start",
    "data-late",
    "data-early",
    "data-late-time-code",
    "data-out-of-sequence",
    "data-reply",
    "data-request",
    "data-reported",
    "data-time-code",
];

/// The marks that the words of a script ask for, load by load, for loads that are accepted.
fn asked(script: &str) -> Vec<Marks> {
    let mut sections = vec![Marks::new()];
    for (line, said) in script.lines().zip(told(script)) {
        if line.starts_with("load ") || line.starts_with("clear") {
            sections.push(Marks::new());
        }
        let marks = sections.last_mut().unwrap();
        for (attribute, key) in said.iter().filter_map(|line| meant(line)) {
            marks.entry(attribute).or_default().push(key);
        }
        if line.starts_with("tc ") && !said.iter().any(|said| said.contains(": refused ")) {
            let codes = marks.entry("data-time-code").or_default();
            codes.push(String::new());
        }
    }
    sections.retain(|marks| !marks.is_empty());
    sections
}

/// The marks of a page, section by section.
fn found(page: &Node) -> Vec<Marks> {
    let mut sections = Vec::new();
    for section in page.with("data-section") {
        let mut marks = Marks::new();
        for attribute in ATTRIBUTES {
            let mut keys = section.values(attribute);
            let coded =
                !["data-start", "data-late", "data-reply", "data-request"].contains(&attribute);
            if coded {
                keys.iter_mut().for_each(String::clear);
            }
            if !keys.is_empty() {
                marks.insert(attribute, keys);
            }
        }
        sections.push(marks);
    }
    sections.retain(|marks| !marks.is_empty());
    sections
}

fn sorted(mut sections: Vec<Marks>) -> Vec<Marks> {
    let marks = sections.iter_mut().flat_map(|marks| marks.values_mut());
    marks.for_each(|keys| keys.sort());
    sections
}

/// Every mark once, and all of them; time-codes counted from 1 in each section.
fn holds(script: &str) -> usize {
    let page = drawn(script);
    let asked = sorted(asked(script));
    assert_eq!(sorted(found(&page)), asked);
    for section in page.with("data-section") {
        let codes = section.values("data-time-code");
        let counted: Vec<_> = (1..=codes.len()).map(|number| number.to_string()).collect();
        assert_eq!(codes, counted);
    }
    inside(&page);
    asked
        .iter()
        .flat_map(|marks| marks.values())
        .map(Vec::len)
        .sum()
}

/// Nothing is drawn beside the paper, and every drawing is as wide as that.
fn inside(page: &Node) {
    let number = |node: &Node, name| {
        node.get(name)
            .map_or(0.0, |word| word.parse::<f64>().unwrap())
    };
    for drawing in page.named("svg") {
        if drawing.has_class("patterns") {
            continue;
        }
        let view = drawing.get("viewBox").unwrap();
        let high: f64 = view.rsplit(' ').next().unwrap().parse().unwrap();
        for node in drawing.named("rect") {
            let (x, y) = (number(node, "x"), number(node, "y"));
            let (right, bottom) = (x + number(node, "width"), y + number(node, "height"));
            assert!(
                x >= 0.0 && right <= PAPER && y >= 0.0 && bottom <= high,
                "{node:?}"
            );
        }
        for node in drawing.named("line") {
            assert!(
                number(node, "x1") >= 0.0 && number(node, "x2") <= PAPER,
                "{node:?}"
            );
            assert!(number(node, "y2") <= high, "{node:?}");
        }
        for node in drawing.named("text") {
            assert!((0.0..PAPER).contains(&number(node, "x")), "{node:?}");
            assert!((0.0..high).contains(&number(node, "y")), "{node:?}");
        }
    }
}

fn script(name: &str) -> String {
    let path = root().join(name);
    let text = fs::read_to_string(&path).unwrap_or_else(|error| panic!("{name}: {error}"));
    // Behind load stands a plan of the project, as scripts/expand has it.
    let lines = text.lines().map(|line| {
        let plan = line
            .strip_prefix("load ")
            .filter(|name| name.ends_with(".plan"));
        match plan {
            Some(plan) => format!("load {}\n", hex(&format!("plans/{plan}"))),
            None => format!("{line}\n"),
        }
    });
    lines.collect()
}

#[test]
fn the_marks_that_the_words_say() {
    for (name, least) in [
        ("scripts/samples.script", 60),
        ("rust/desk/tests/scripts/everything.txt", 49),
        ("rust/desk/tests/scripts/turns.txt", 20),
        ("rust/desk/tests/scripts/times.txt", 2),
        ("rust/desk/tests/scripts/replies.txt", 2),
    ] {
        let marks = holds(&script(name));
        assert!(marks >= least, "{name}: {marks}");
    }
    let guide = format!(
        "load {}\n{}",
        hex("plans/guide.plan"),
        script("docs/guide.script")
    );
    // Six time-codes, one of them out of sequence, three requests, three starts, two replies, one late, one reading.
    assert_eq!(holds(&guide), 17);
}

/// Requests, replies and time-codes by chance under a plan of eight initiators, over many rows.
#[test]
fn a_run_by_chance() {
    let mut chance = Chance(0x5eed_0902);
    let requests = [
        (0, 10),
        (1, 11),
        (2, 12),
        (3, 13),
        (4, 30),
        (5, 30),
        (6, 14),
        (7, 15),
    ];
    let mut script = format!("load {}\n", hex("plans/eight.plan"));
    let (mut slot, mut clock) = (0_u8, 0_u32);
    let mut numbers = [0_u16; 8];
    for _ in 0..250 {
        for _ in 0..chance.below(6) {
            let (initiator, target) = requests[chance.below(8)];
            script += &format!("req {initiator} {target} 0 {}\n", chance.below(300));
        }
        for _ in 0..chance.below(6) {
            let initiator = chance.below(8);
            let number = numbers[initiator].wrapping_add(chance.below(2) as u16);
            script += &format!("rep {initiator} {number} {}\n", chance.below(20));
            numbers[initiator] = number;
        }
        if chance.below(10) == 0 {
            script += &format!("clk {}\n", clock.wrapping_add(chance.below(300) as u32));
        }
        slot = (slot + 1 + u8::from(chance.below(50) == 0)) % 64;
        clock = clock.wrapping_add(85 + chance.below(30) as u32);
        script += &format!("tc {slot} {clock} 136\n");
    }
    let marks = holds(&script);
    assert!(marks > 1_000, "{marks}");
}

/// A late transaction whose span ends where a row does, and one that runs on into the next row.
#[test]
fn over_the_end_of_a_row() {
    let mut script = format!("load {}\nreq 2 20 0 1\n", hex("plans/guide.plan"));
    for time_code in 0..80_u32 {
        script += &format!("tc {} {} 136\n", (time_code + 50) % 64, 1_000 * time_code);
        if time_code % 12 == 0 {
            script += "req 2 20 0 700\nreq 1 21 0 1\nreq 1 21 0 600\n";
        }
    }
    for shift in 0..16 {
        let before = "req 1 20 0 1\n".repeat(usize::from(shift > 0));
        let begin: String = (0..shift)
            .map(|time_code| {
                format!(
                    "tc {} {} 136\n",
                    50 - shift + time_code,
                    1_000_000 - 1_000 * time_code
                )
            })
            .collect();
        let shifted = script.replacen(
            "req 2 20 0 1\n",
            &format!("req 2 20 0 1\n{before}{begin}"),
            1,
        );
        assert!(holds(&shifted) > 80, "{shift}");
    }
}

/// What each load and clear begins, with verdict and fingerprint.
#[test]
fn sections() {
    let guide = bytes("plans/guide.plan");
    let judged = desk::judge::judge(&guide);
    let print = desk::fingerprint::fingerprint(&judged.held);
    let script = format!(
        "clk 1\nload {}\ntc 0 0 136\nclear\nload -\nload ../../plans/guide.plan\n",
        hex("plans/guide.plan")
    );
    let page = drawn(&script);
    let sections = page.with("data-section");
    let heads: Vec<_> = sections
        .iter()
        .map(|section| section.named("h2")[0].text())
        .collect();
    assert_eq!(
        heads,
        [
            "Before the first load",
            "Load 1",
            "Clear",
            "Load 2, refused",
            "Load 3"
        ]
    );
    let facts = |section: &Node| -> Vec<(String, String)> {
        let facts = section.with("data-fact");
        facts
            .iter()
            .map(|fact| (fact.get("data-fact").unwrap().to_string(), fact.text()))
            .collect()
    };
    let fact = |name: &str, value: &str| (name.to_string(), value.to_string());
    let none = fact("plan", "there is no plan in the box");
    let verdict =
        "ACCEPTED 5 4 3 4: the plan is in the box (devices 5, links 4, paths 3, entries 4)";
    assert_eq!(
        facts(sections[0]),
        [none.clone(), fact("played", "1 refused")]
    );
    assert_eq!(
        facts(sections[1]),
        [
            fact("verdict", verdict),
            fact("fingerprint", &print),
            fact("played", "1 time-code")
        ]
    );
    assert_eq!(facts(sections[2]), [none]);
    let refused = "REFUSED 12 0: the timing field is missing (file length 0)";
    assert_eq!(facts(sections[3]), [fact("verdict", refused)]);
    assert_eq!(
        facts(sections[4]),
        [
            fact("verdict", verdict),
            fact("fingerprint", &print),
            fact("file", "../../plans/guide.plan")
        ]
    );
    assert!(sections[0].named("svg").is_empty());
    assert_eq!(sections[1].named("svg").len(), 1);
    assert!(sections[4].named("svg").is_empty());
}

/// The counts of a section, and what asks for something in the panel's words, with the time-code.
#[test]
fn what_is_said() {
    let page = drawn(&script("rust/desk/tests/scripts/everything.txt"));
    let section = page
        .with("data-section")
        .into_iter()
        .find(|section| section.values("data-start").len() > 3)
        .unwrap();
    let played = section.with("data-fact").last().unwrap().text();
    assert_eq!(
        played,
        "15 time-codes, 1 came early, 1 came late, 5 out of sequence, 2 readings that reported lateness, 14 requests taken, 6 starts, 1 reply (success), 1 reply (error), 1 reply (reserved), 2 given up as late, 13 refused"
    );
    let rows: Vec<_> = section
        .with("data-said")
        .iter()
        .map(|cell| cell.text())
        .collect();
    assert!(
        rows.contains(&"late: initiator 1 number 2 to target 3, 1 byte".to_string()),
        "{rows:?}"
    );
    assert!(rows.contains(&"time-code out of sequence".to_string()));
    assert!(rows.contains(&"clock 1211: the next time-code is late".to_string()));
    assert!(rows.contains(
        &"watchdog set: last clock 4294967295, seen yes, reported no, least 10, greatest 5"
            .to_string()
    ));
    assert!(
        rows.contains(&"writing out: refused 30: the room is smaller than the plan".to_string())
    );
    assert!(!rows
        .iter()
        .any(|row| row.contains(" starts ") || row.contains("nothing to report")));
    let cells = section
        .named("tr")
        .into_iter()
        .find(|row| row.text().ends_with("time-code early"));
    assert_eq!(cells.unwrap().text(), "43time-code early");
}

/// Refusals in their lane and above all lanes, several of one kind in one frame.
#[test]
fn refusals() {
    let script = format!(
        "load {}\nreq 1 20 0 257\nreq 1 20 0 258\nreq 9 20 0 1\nreq 1 20 0 4097\nrep 2 0 0\ntc 64 0 136\ntc 0 0 136\ntc 1 0 0\n",
        hex("plans/guide.plan")
    );
    let page = drawn(&script);
    let refused = page.with("data-refused").into_iter().map(|mark| {
        let number = mark.get("data-refused").unwrap();
        (
            number.to_string(),
            mark.get("data-count").unwrap().to_string(),
            mark.text(),
        )
    });
    let mut refused: Vec<_> = refused.collect();
    refused.sort();
    let one = |number: &str| (number.to_string(), "1".to_string(), number.to_string());
    let two = ("25".to_string(), "2".to_string(), "25×2".to_string());
    assert_eq!(
        refused,
        [one("21"), one("22"), one("24"), two, one("27"), one("29")]
    );
    let titles: Vec<_> = page
        .named("title")
        .iter()
        .map(|title| title.text())
        .collect();
    assert!(titles.contains(&"request×2: refused 25: no entry of this initiator permits this target with this length".to_string()), "{titles:?}");
    assert!(titles.contains(
        &"time-code: refused 29: the record buffer has fewer than 136 bytes".to_string()
    ));
    assert!(
        titles.contains(&"reply: refused 27: nothing of this initiator is under way".to_string())
    );
}

/// How many wait, at the end of each slot.
#[test]
fn lines_of_requests() {
    let script = format!(
        "load {}\nreq 2 20 0 1\nreq 2 20 0 2\ntc 61 0 136\nreq 2 20 0 3\ntc 62 1000 136\ntc 63 2000 136\n",
        hex("plans/guide.plan")
    );
    let page = drawn(&script);
    let squares = |fill: &str| {
        let rects = page.named("rect").into_iter();
        rects
            .filter(|rect| rect.get("fill") == Some(fill) && rect.get("width") == Some("3.8"))
            .count()
    };
    // One black and one grey stand in the legend. Two join and wait at 61, where one joins; at 62 one starts, and two wait there and at 63.
    assert_eq!(squares("#000"), 1 + 3);
    assert_eq!(squares("#c4c4c4"), 1 + 2 + 2 + 2);
}

/// A kind of record that no accepted plan has is drawn all the same.
#[test]
fn not_started() {
    let mut panel = Panel::new(false);
    let mut gathered = Gathered::new();
    let load = format!("load {}", hex("plans/guide.plan"));
    gathered.add(panel.happen(load.as_bytes()).unwrap());
    let record = |kind| Record {
        kind,
        initiator: 1,
        target: 20,
        value: 7,
        transaction: 3,
        length: 9,
    };
    gathered.add(Happening::TimeCode {
        byte: 7,
        clock: 0,
        answer: Ok(vec![
            record(Record::TRANSACTION_LATE),
            record(Record::STILL_LIVE),
            record(9),
        ]),
    });
    let text = page("s", &gathered.chart(), &Given::default());
    let page = read(&text).unwrap();
    assert_eq!(page.values("data-not-started"), ["1-3"]);
    assert_eq!(page.values("data-late"), ["1-3"]);
    let rows: Vec<_> = page
        .with("data-said")
        .iter()
        .map(|cell| cell.text())
        .collect();
    assert_eq!(
        rows,
        [
            "late: initiator 1 number 3 to target 20, 9 bytes",
            "not started: initiator 1 still has number 3 to target 20, 9 bytes",
            "a record of kind 9: not on the card"
        ]
    );
}

fn left_out(page: &Node) -> Vec<String> {
    let all = page.all().into_iter();
    let left_out = all.filter(|node| node.has_class("left-out"));
    left_out.map(Node::text).collect()
}

/// Of a long run the first 2,000 time-codes are drawn; what comes behind them is counted, and what was played in all is said.
#[test]
fn a_long_run() {
    let mut script = format!("load {}\n", hex("plans/guide.plan"));
    for time_code in 0..2_400_u32 {
        script += &format!("tc {} {} 136\n", time_code % 64, 1_000 * time_code);
        if time_code % 64 == 60 {
            script += "req 2 20 0 1\n";
        }
    }
    let page = drawn(&script);
    assert_eq!(page.values("data-time-code").len(), 2_000);
    assert_eq!(page.values("data-request").len(), 31);
    let played = page.with("data-fact").last().unwrap().text();
    assert_eq!(
        played,
        "2400 time-codes, 37 requests taken, 37 starts, 37 given up as late"
    );
    assert_eq!(
        left_out(&page),
        ["Left out from here on, not drawn: 400 time-codes, 6 requests taken, 6 starts, 6 given up as late."]
    );
    let again = format!(
        "{script}load {}\nreq 2 20 0 1\ntc 0 0 136\n",
        hex("plans/guide.plan")
    );
    let page = drawn(&again);
    assert_eq!(page.values("data-time-code").len(), 2_000);
    assert_eq!(
        left_out(&page)[1],
        "Left out from here on, not drawn: 1 time-code, 1 request taken."
    );
}

/// What stands before the first time-code takes the place of none.
#[test]
fn before_a_long_run() {
    let mut script = format!("load {}\nreq 1 20 0 1\n", hex("plans/guide.plan"));
    (0..2_001_u32).for_each(|time_code| {
        script += &format!("tc {} {} 136\n", time_code % 64, 1_000 * time_code);
    });
    let page = drawn(&script);
    assert_eq!(page.values("data-time-code").len(), 2_000);
    assert_eq!(page.values("data-request"), ["1-0"]);
    assert_eq!(page.values("data-start"), ["1-0"]);
    assert_eq!(
        left_out(&page),
        ["Left out from here on, not drawn: 1 time-code."]
    );
}

/// Many loads, many lines that ask for something, and many that are no command.
#[test]
fn many_of_everything() {
    let page = drawn(&"clear\n".repeat(250));
    assert_eq!(page.with("data-section").len(), 199);
    assert_eq!(
        left_out(&page),
        ["And 51 more loads and clears, which are not shown."]
    );
    let page = drawn(&"clk 1\n".repeat(130));
    assert_eq!(page.with("data-said").len(), 100);
    assert_eq!(left_out(&page), ["And 30 more lines."]);
    let page = drawn(&"bogus\n".repeat(25));
    assert_eq!(page.with("data-wrong").len(), 20);
    assert_eq!(left_out(&page), ["And 5 more."]);
    assert!(page.text().contains("line 20: not a command: bogus\n    'bogus' begins no command; a command begins with one of: load, "), "{}", page.text());
}

#[test]
fn nothing_played() {
    for script in ["", "# only a comment\n\n"] {
        let page = drawn(script);
        assert!(page.with("data-section").is_empty());
        assert_eq!(
            page.with("data-fact")[1].text(),
            "nothing: the script has no command that is drawn"
        );
    }
}

/// Words of the caller, of files and of devices are words on the page, whatever they look like; what nobody sees is shown as its code.
#[test]
fn words_are_escaped() {
    let folder = root().join("target/history");
    fs::create_dir_all(&folder).unwrap();
    let mut text = fs::read_to_string(root().join("plans/guide.plan")).unwrap();
    text += "name 1 <b>&amp; \"x\" 'y'\nname 2 ]]>\n";
    fs::write(folder.join("<i>&.plan"), text).unwrap();
    let script = "load target/history/<i>&.plan\ntc 0 0 136\n<script>&\u{1}\u{202e}\n".to_string();
    let words = [
        "--page",
        "--title",
        "<h1> & \"t\"",
        "--date",
        "16.<11>",
        "-",
    ];
    let ran = run(PANEL, &words, script.as_bytes());
    let page = read(ran.text()).unwrap_or_else(|wrong| panic!("{wrong}"));
    assert_eq!(page.named("h1")[0].text(), "<h1> & \"t\"");
    assert_eq!(page.named("title")[0].text(), "<h1> & \"t\"");
    let facts: Vec<_> = page
        .with("data-fact")
        .iter()
        .map(|fact| fact.text())
        .collect();
    assert_eq!(facts[..2], ["standard input", "16.<11>"]);
    assert!(
        facts.contains(&"target/history/<i>&.plan".to_string()),
        "{facts:?}"
    );
    let texts: Vec<_> = page.named("text").iter().map(|text| text.text()).collect();
    assert!(
        texts.contains(&"<b>&amp; \"x\" 'y'".to_string()),
        "{texts:?}"
    );
    assert!(texts.contains(&"]]>".to_string()));
    let wrong = page.with("data-wrong")[0].text();
    assert!(
        wrong.starts_with("line 3: not a command: <script>&\\u{1}\\u{202e}\n"),
        "{wrong}"
    );
    assert_eq!(ran.status, Status::Complaints as i32);
}

/// It needs nothing else, and no script runs in it.
#[test]
fn by_itself() {
    let ran = run(
        PANEL,
        &["--page", "rust/desk/tests/scripts/everything.txt"],
        b"",
    );
    let text = ran.text();
    for word in [
        "http", "<script", "src=", "href=", "@import", "<link", "<img", "<iframe",
    ] {
        assert!(!text.contains(word), "{word}");
    }
    let page = read(text).unwrap();
    let patterns = page.named("pattern").len();
    for (place, _) in text.match_indices("url(") {
        assert!(
            text[place..].starts_with("url(#p"),
            "{}",
            &text[place..place + 20]
        );
    }
    assert_eq!(patterns, 8);
    assert_eq!(
        page.named("h1")[0].text(),
        "rust/desk/tests/scripts/everything.txt"
    );
}

/// The status is the panel's, and what a reader of the page might not see is said on standard error too.
#[test]
fn statuses_and_standard_error() {
    let guide = format!("load {}\n", hex("plans/guide.plan"));
    let refused = "load: REFUSED 12 0: the timing field is missing (file length 0); there is no plan in the box\n";
    let wrong = "line 2: not a command: clear 1\n    behind 'clear' stands 1 word and should stand 0: clear\n";
    for (script, status, err) in [
        (guide.clone(), Status::Done, String::new()),
        (format!("{guide}req 9 9 9 9\n"), Status::Done, String::new()),
        (
            format!("{guide}load -\n"),
            Status::Refused,
            refused.to_string(),
        ),
        (
            format!("load -\nclear 1\n{guide}"),
            Status::Complaints,
            format!("{refused}{wrong}"),
        ),
    ] {
        let ran = run(PANEL, &["--page"], script.as_bytes());
        assert!(read(ran.text()).is_ok());
        assert_eq!((ran.err, ran.status), (err, status as i32), "{script}");
    }
}

#[test]
fn wrong_words() {
    for (words, said) in [
        (&["--title", "x"][..], "--title and --date go with --page"),
        (&["--date", "x", "a"], "--title and --date go with --page"),
        (
            &["--page", "--title"],
            "behind --title stand 0 words and should stand 1",
        ),
        (
            &["--page", "--date", "x", "--date", "y"],
            "--date stands twice",
        ),
        (&["--page", "--page"], "--page stands twice"),
        (
            &["--page", "--card"],
            "--page and --card exclude each other",
        ),
        (
            &["--page", "a", "b"],
            "one file at a time, and b is one more",
        ),
    ] {
        let ran = run(PANEL, words, b"");
        let said = format!("spwd-panel: {said}; see spwd-panel --help\n");
        assert_eq!(
            (ran.text(), ran.err.as_str(), ran.status),
            ("", said.as_str(), 3),
            "{words:?}"
        );
    }
    let ran = run(PANEL, &["--page", "no-such-file"], b"");
    let said = "spwd-panel: no-such-file: No such file or directory (os error 2)\n";
    assert_eq!((ran.text(), ran.err.as_str(), ran.status), ("", said, 3));
}

/// Lines of words and bytes by chance: every page is well formed, and no box and no page is at a loss.
#[test]
fn lines_by_chance() {
    let mut chance = Chance(0x5eed_0903);
    let (guide, eight) = (hex("plans/guide.plan"), hex("plans/eight.plan"));
    for _ in 0..40 {
        let mut script = Vec::new();
        for _ in 0..chance.below(300) {
            let device = [0, 1, 2, 9, 10, 20, 21, 255][chance.below(8)];
            let small = chance.below(4);
            let line = match chance.below(60) {
                0 => format!("load {guide}"),
                1 => format!("load {eight}"),
                2 => "load -".to_string(),
                3 => "clear".to_string(),
                4 => format!("setwd {small} {small} 0 {small} 5"),
                5 => format!("holds {guide}"),
                6 => "blank".to_string(),
                7 => format!("out {}", 100 * small),
                8 => format!("next {small} 20 1 {device}"),
                9..12 => format!("clk {}", chance.below(5_000)),
                12..32 => format!("tc {} {} 136", chance.below(70), chance.below(5_000)),
                32..48 => format!("req {small} {device} {} {}", chance.below(3), 100 * small),
                48..58 => format!("rep {small} {} {}", chance.below(5), device),
                _ => {
                    let size = chance.below(20);
                    script.extend((0..size).map(|_| chance.byte()));
                    String::new()
                }
            };
            script.extend(line.bytes());
            script.push(b'\n');
        }
        let mut panel = Panel::new(false);
        let mut gathered = Gathered::new();
        for line in script.split(|&byte| byte == b'\n') {
            panel
                .happen(line)
                .into_iter()
                .for_each(|happening| gathered.add(happening));
        }
        let text = page("by chance", &gathered.chart(), &Given::default());
        let page = read(&text).unwrap_or_else(|wrong| panic!("{wrong}"));
        inside(&page);
        let starts = page.values("data-start").len();
        let ends = page.values("data-late").len() + page.values("data-reply").len();
        assert!(ends <= starts, "{ends} {starts}");
    }
}
