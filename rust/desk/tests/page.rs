//! `spwd-show --page`: pages are well formed, need nothing else, and hold what they must.

mod common;

use common::pages::{all_plans, cells, drawn, of_text, said, sorted, source};
use common::xml::{page as read, Node};
use common::{bytes, expected, run, SHOW};
use desk::fields::{fields, Entry};
use desk::fingerprint::fingerprint;
use desk::html::head::Given;
use desk::html::page::page;
use desk::judge::{judge, Judged};
use desk::plan::Plan;
use desk::source::Source;
use spwd::{Fault, Verdict};
use std::collections::BTreeSet;

/// What of a file should be drawn: all that the box holds, or what can be read.
fn shown<'a>(source: &'a Source, judged: &'a Judged) -> Plan<'a> {
    match judged.verdict {
        Verdict::Accepted(_) => Plan::of(&judged.held),
        Verdict::Refused(Fault::File {
            number: 2 | 3 | 5,
            place,
        }) => {
            let mut before = fields(source.bytes());
            before.retain(|field| field.offset < usize::from(place));
            Plan::given(&before)
        }
        _ => Plan::of(source.bytes()),
    }
}

/// Values that are all different, as a refused plan's are if one that stands twice has a number behind it.
#[track_caller]
fn numbered(values: impl Iterator<Item = String>) -> Vec<String> {
    let mut found: Vec<String> = Vec::new();
    for value in values {
        let again = |own: &&String| **own == value || own.starts_with(&format!("{value}-again"));
        let count = found.iter().filter(again).count();
        found.push(match count {
            0 => value,
            _ => format!("{value}-again{}", count + 1),
        });
    }
    sorted(found.into_iter().map(|value| value.replace("-again", "-")))
}

#[test]
fn the_reader_is_strict() {
    let whole = |inside: &str| read(&format!("<!DOCTYPE html>\n<html>{inside}</html>\n"));
    let good = "<p id=\"a\" class=\"b\">1 &lt; 2 &amp; &#39;<br/></p>";
    let node = whole(good).unwrap();
    assert_eq!(node.id("a").unwrap().text(), "1 < 2 & '");
    for (bad, said) in [
        ("<p>", "no \"</p>\": </html>\n"),
        ("<p></b></p>", "no \"</p>\": </b></p></html>\n"),
        ("</p>", "no \"</html>\": </p></html>\n"),
        ("<p/>", "no \">\": /></html>\n"),
        ("<br>", "no \"/>\": ></html>\n"),
        ("<p a=\"1\" a=\"2\"></p>", "attribute a stands twice"),
        ("<p id=\"a\"></p><p id=\"a\"></p>", "id a stands twice"),
        ("<p a=1></p>", "no \"=\\\"\": =1></p></html>\n"),
        ("<p a=\"<\"></p>", "no \"\\\"\": <\"></p></html>\n"),
        ("<p a></p>", "no \"=\\\"\": ></p></html>\n"),
        ("a & b", "bare &: & b"),
        ("a &nbsp; b", "&nbsp; is none of XML's entities"),
        ("a < b", "\"\" is no name"),
        ("a \u{1b}", "'\\u{1b}' is no character of XML"),
        ("]]>", "]]> in text"),
        ("<style>a & b</style>", "& in a style"),
        ("<style>a &lt; b</style>", "& in a style"),
    ] {
        assert_eq!(whole(bad).unwrap_err(), said, "{bad}");
    }
    assert_eq!(read("<html></html>\n").unwrap_err(), "doctype");
    assert_eq!(
        read("<!DOCTYPE html>\n<p></p><p></p>\n").unwrap_err(),
        "behind the page: \"<p></p>\\n\""
    );
}

/// Every entry, device, link, path and reply once, whatever the verdict.
#[test]
fn each_thing_once() {
    for name in all_plans() {
        let source = source(&name);
        let judged = judge(source.bytes());
        let plan = shown(&source, &judged);
        let page = drawn(&source);
        let entry = |entry: &Entry| format!("{}-{}", entry.initiator, entry.slot);
        assert_eq!(
            sorted(page.values("data-entry")),
            numbered(plan.entries.iter().map(entry)),
            "{name}"
        );
        let given = plan.devices.iter().map(|device| device.number);
        let ends = plan.links.iter().flat_map(|link| link.ends);
        let devices: BTreeSet<_> = given.chain(ends).collect();
        let drawn_devices = page.values("data-device").into_iter();
        let drawn_devices = drawn_devices.map(|device| device.parse::<u8>().unwrap());
        assert_eq!(sorted(drawn_devices), sorted(devices), "{name}");
        let links: BTreeSet<_> = plan.links.iter().map(|link| link.number).collect();
        let drawn_links = page.values("data-link").into_iter();
        let drawn_links = drawn_links.map(|link| link.parse::<u8>().unwrap());
        assert_eq!(sorted(drawn_links), sorted(links), "{name}");
        let paths = plan.paths.iter();
        let mut drawn_paths = page.values("data-path");
        drawn_paths.retain(|path| path != "none");
        assert_eq!(
            sorted(drawn_paths),
            numbered(paths.map(|path| format!("{}-{}", path.initiator, path.target))),
            "{name}"
        );
        assert_eq!(
            page.values("data-reply").len(),
            plan.replies.len(),
            "{name}"
        );
    }
}

/// The walks of paths and replies are those that `spwd-show` prints.
#[test]
fn walks() {
    let mut replies = 0;
    for name in all_plans() {
        let source = source(&name);
        let judged = judge(source.bytes());
        if !judged.verdict.is_accepted() {
            continue;
        }
        let plan = Plan::of(&judged.held);
        let page = drawn(&source);
        for path in &plan.paths {
            let row = page
                .id(&format!("path-{}-{}", path.initiator, path.target))
                .unwrap();
            let cells = cells(row);
            let reply = plan.reply(path.initiator, path.target);
            replies += reply.iter().count();
            let home = reply.map(|reply| plan.drawn(&reply.way(), None));
            let said = [
                path.initiator.to_string(),
                path.target.to_string(),
                plan.drawn(&path.way(), None),
                home.unwrap_or("the same links".to_string()),
            ];
            assert_eq!(cells, said, "{name}");
        }
    }
    assert!(replies > 1, "{replies}");
}

/// A page needs nothing from outside, and the same plan gives the same page.
#[test]
fn nothing_from_outside() {
    for name in all_plans() {
        let source = source(&name);
        let (text, _) = page(&source, &Given::default());
        for part in [
            "http",
            "<script",
            "src=",
            "href",
            "@import",
            "<link",
            "<img",
            "<iframe",
            "javascript",
            "data:",
        ] {
            assert!(!text.contains(part), "{name}: {part}");
        }
        let outside = text
            .split("url(")
            .skip(1)
            .find(|url| !url.starts_with("#p"));
        assert_eq!(outside, None, "{name}");
        assert_eq!(page(&source, &Given::default()).0, text, "{name}");
    }
}

/// The program writes the page, and its status says the verdict.
#[test]
fn the_program() {
    for name in all_plans() {
        let (text, accepted) = page(&source(&name), &Given::default());
        let ran = run(SHOW, &["--page", &name], b"");
        assert_eq!(ran.text(), text, "{name}");
        let status = if accepted { 0 } else { 1 };
        assert_eq!((ran.err.as_str(), ran.status), ("", status), "{name}");
    }
    let ran = run(SHOW, &["--page"], &bytes("plans/guide.plan"));
    assert!(ran.text().contains("<h1>standard input</h1>"));
    assert_eq!(ran.status, 0);
    let ran = run(SHOW, &["--page", "--text"], b"what 1\n");
    assert_eq!((ran.text(), ran.status), ("", 2));
    assert!(
        ran.err.starts_with("standard input:1: what 1\n"),
        "{}",
        ran.err
    );
}

#[test]
fn options() {
    for (words, said) in [
        (
            &["--title", "a", "plans/guide.plan"][..],
            "--title and --date go with --page",
        ),
        (
            &["--date", "a", "plans/guide.plan"],
            "--title and --date go with --page",
        ),
        (
            &["--page", "--next", "1", "20", "0", "plans/guide.plan"],
            "--page and --next exclude each other",
        ),
        (
            &["--page", "--title"],
            "behind --title stand 0 words and should stand 1",
        ),
        (
            &["--page", "--title", "a", "--title", "b"],
            "--title stands twice",
        ),
        (
            &["--page", "--date", "a", "--date", "b"],
            "--date stands twice",
        ),
        (&["--page", "--page"], "--page stands twice"),
    ] {
        let ran = run(SHOW, words, b"");
        let said = format!("spwd-show: {said}; see spwd-show --help\n");
        assert_eq!(
            (ran.text(), ran.err.as_str(), ran.status),
            ("", &said[..], 3),
            "{words:?}"
        );
    }
    let help = run(SHOW, &["--help"], b"");
    for part in ["spwd-show --page ", "--title WORDS ", "--date WORDS "] {
        assert!(help.text().contains(part), "{part}");
    }
}

fn fact(page: &Node, id: &str) -> Option<String> {
    page.id(id).map(Node::text)
}

/// Title, file name, fingerprint, verdict, counts, date and intervals, in this order.
#[test]
fn heads() {
    let words = [
        "--page",
        "--title",
        "Box 7",
        "--date",
        "16 November 2026",
        "plans/guide.plan",
    ];
    let ran = run(SHOW, &words, b"");
    let page = read(ran.text()).unwrap();
    let held = judge(&bytes("plans/guide.plan")).held;
    let header = page.named("header")[0];
    assert_eq!(header.named("h1")[0].text(), "Box 7");
    assert_eq!(page.named("title")[0].text(), "Box 7");
    let cells: Vec<_> = header
        .named("tr")
        .iter()
        .map(|row| {
            let cells: Vec<_> = row.inside.iter().map(Node::text).collect();
            cells.join(": ")
        })
        .collect();
    let said = [
        "file: plans/guide.plan".to_string(),
        format!("fingerprint: {}", fingerprint(&held)),
        "verdict: ACCEPTED 5 4 3 4".to_string(),
        "counts: devices 5, links 4, paths 3, entries 4".to_string(),
        "date: 16 November 2026".to_string(),
        "time-code interval: least 900, greatest 1100".to_string(),
    ];
    assert_eq!(cells, said);
    let page = drawn(&source("plans/guide.plan"));
    assert_eq!(page.named("h1")[0].text(), "plans/guide.plan");
    assert_eq!(fact(&page, "date"), None);
    let never = of_text("node 1\nnode 2\nlink 0 1 2\npath 1 2 0\nentry 1 0 1 2\nintervals 0 9\n");
    assert_eq!(
        fact(&drawn(&never), "intervals").unwrap(),
        "least 0 (never early), greatest 9"
    );
    let refused = drawn(&source("plans/reply-clash.plan"));
    assert_eq!(fact(&refused, "fingerprint"), None);
    let counts = "none: the plan is refused. Drawn here: devices 6, links 6, paths 3, entries 4";
    assert_eq!(fact(&refused, "counts").unwrap(), counts);
    let head = refused.id("verdict").unwrap();
    assert!(head.has_class("refused"));
    assert!(head
        .text()
        .starts_with("REFUSED 14 1 1 2 514: in this slot both may be using this link"));
    assert!(refused.id("turns").is_none());
}

const HOSTILE: &str = "<b>\"&amp;'</b> ]]> \u{1b}[31m \u{202e}x\u{7f}";
const SHOWN: &str = "<b>\"&amp;'</b> ]]> \\u{1b}[31m \\u{202e}x\\u{7f}";

/// Names, titles and dates are words, whatever is in them.
#[test]
fn hostile_words() {
    let mut source = source("plans/guide.plan");
    source.name = HOSTILE.to_string();
    source.compiled.names.give(1, HOSTILE.to_string());
    source.compiled.names.give(20, "camera".to_string());
    source
        .compiled
        .names
        .give(10, "the router in the middle of it all".to_string());
    let given = Given {
        title: Some(format!("title {HOSTILE}")),
        date: Some(format!("date {HOSTILE}")),
    };
    let (text, _) = page(&source, &given);
    let page = read(&text).unwrap();
    assert_eq!(page.named("h1")[0].text(), format!("title {SHOWN}"));
    assert_eq!(fact(&page, "date").unwrap(), format!("date {SHOWN}"));
    assert_eq!(fact(&page, "file").unwrap(), SHOWN);
    assert!(page.named("b").is_empty());
    let network = page.id("network").unwrap();
    let all = format!("Devices: 1 {SHOWN}; 10 the router in the middle of it all; 20 camera.");
    assert_eq!(network.named("p").last().unwrap().text(), all);
    assert_eq!(page.id("device-20").unwrap().text(), "20camera");
    assert_eq!(page.id("device-10").unwrap().text(), "10the router in the…");
    assert!(page.id("entry-2-1").unwrap().text().ends_with("20 camera"));
    assert!(page.id("entry-1-0").unwrap().text().ends_with("20, 21"));
}

/// Every word of some pages, but for the drawings.
#[test]
fn words() {
    for name in [
        "guide",
        "guide-reply",
        "times-never",
        "reply-clash",
        "sample-tag-6",
        "no-entry",
    ] {
        let page = drawn(&source(&format!("plans/{name}.plan")));
        let lines: String = said(&page).iter().map(|line| format!("{line}\n")).collect();
        assert_eq!(lines, expected(&format!("page/{name}.txt")), "{name}");
    }
}
