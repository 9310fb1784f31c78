//! `spwd-show --page` of a refused plan: what is at fault is marked wherever it is drawn, and nothing else is.

mod common;

use common::pages::{all_plans, cells, drawn, of_text, sorted, source};
use common::xml::Node;
use common::{bytes, run, SHOW};
use desk::judge::judge;
use desk::page::page as shown_page;
use desk::source::Source;

/// What is marked, by class and by name; a bar that goes on in another block is so in all its parts.
fn marked(page: &Node) -> String {
    let marked = page.with("data-fault");
    assert!(marked.iter().all(|node| node.has_class("fault")));
    let classes = page
        .all()
        .into_iter()
        .filter(|node| node.has_class("fault"));
    assert_eq!(classes.count(), marked.len());
    let mut names = sorted(page.values("data-fault"));
    names.dedup();
    names.join(" ")
}

/// The links of the ways that meet, besides the one where they do.
fn thick(page: &Node) -> String {
    let links = page.with("data-link").into_iter();
    let ways = links.filter(|link| link.has_class("way"));
    let numbers = ways.map(|link| link.get("data-link").unwrap().parse::<u8>().unwrap());
    let numbers: Vec<_> = sorted(numbers).iter().map(u8::to_string).collect();
    numbers.join(" ")
}

/// Of a clash the link, both entries, the slot, and the paths whose ways meet.
#[test]
fn clashes() {
    for (plan, faults, ways) in [
        (
            "plans/sample-first-clash",
            "entry-1-0 entry-2-0 link-3 path-1-4 path-2-4 slot-0",
            "0 1 4",
        ),
        (
            "plans/sample-over-63",
            "entry-1-63 entry-2-0 link-2 path-1-3 path-2-3 slot-0",
            "0 1 4",
        ),
        (
            "plans/figure-3-4-clash",
            "entry-1-1 entry-2-1 link-3 path-1-41 path-2-41 slot-1",
            "0 1",
        ),
        (
            "plans/figure-3-5-clash",
            "entry-1-2 entry-2-1 link-3 path-1-41 path-2-41 slot-2",
            "0 1",
        ),
        (
            "plans/figure-21-mixed",
            "entry-1-0 entry-2-0 link-1 path-1-2 path-2-21 slot-0",
            "0 3",
        ),
        (
            "plans/table-7-8-clash",
            "entry-1-0 entry-2-0 link-2 path-1-11 path-2-11 slot-0",
            "0 1",
        ),
        (
            "plans/reply-clash",
            "entry-1-1 entry-2-1 link-5 path-1-21 path-2-20 slot-1",
            "0 1 3 4",
        ),
        (
            "rust/desk/tests/plans/verdict-14-reply",
            "entry-1-0 entry-2-0 link-4 path-1-4 path-2-3 slot-0",
            "0 1 2 3",
        ),
    ] {
        let page = drawn(&source(&format!("{plan}.plan")));
        assert_eq!(
            (marked(&page).as_str(), thick(&page).as_str()),
            (faults, ways),
            "{plan}"
        );
    }
}

/// A mark is more than a colour: an exclamation mark in the bar and at the way, the link between double lines, a frame round its number.
#[test]
fn marks_without_colour() {
    let page = drawn(&source("plans/reply-clash.plan"));
    let bar = |id: &str| page.id(id).unwrap().text();
    assert_eq!(
        [
            bar("entry-1-0"),
            bar("entry-1-1"),
            bar("entry-2-1"),
            bar("entry-2-62")
        ],
        ["20, 21", "! 21", "! 20", "20"]
    );
    let row = |id: &str| cells(page.id(id).unwrap());
    let same = "the same links";
    assert_eq!(row("path-1-20"), ["1", "20", "1 -0- 10 -2- 20", same]);
    let said = "! clash on link 5 in slot 1";
    assert_eq!(
        row("path-1-21"),
        ["1", "21", &format!("1 -0- 10 =5= 11 -3- 21{said}"), same]
    );
    assert_eq!(
        row("path-2-20"),
        [
            "2",
            "20",
            "2 -1- 10 -2- 20",
            &format!("20 -4- 11 =5= 10 -1- 2{said}")
        ]
    );
    let frames = |id: &str| {
        let rects = page.id(id).unwrap().named("rect").into_iter();
        rects.filter(|rect| rect.has_class("frame")).count()
    };
    assert_eq!((frames("link-5"), frames("link-4")), (1, 0));
}

/// Of an overrun the entry and all that begin while it runs, each in a lane of its own.
#[test]
fn overruns() {
    for (plan, faults) in [
        ("sample-overrun", "entry-1-0 entry-1-63"),
        ("figure-3-5-overrun", "entry-2-1 entry-2-2"),
    ] {
        let page = drawn(&source(&format!("plans/{plan}.plan")));
        assert_eq!(marked(&page), faults, "{plan}");
    }
    let text = "node 1\nnode 2\nlink 0 1 2\npath 1 2 0\nentry 1 60 16 2\nentry 1 62 1 2\nentry 1 3 1 2\nentry 1 40 2 2\nintervals 1 2\n";
    let page = drawn(&of_text(text));
    assert_eq!(marked(&page), "entry-1-3 entry-1-60 entry-1-62");
    let parts = page.with("data-more");
    assert_eq!(parts.len(), 1);
    assert_eq!(
        (parts[0].get("data-more"), parts[0].get("data-fault")),
        (Some("1-60"), Some("entry-1-60"))
    );
}

/// Of a field the line, and the item where it is drawn.
#[test]
fn fields() {
    for (plan, faults) in [
        ("verdict-2", "line"),
        ("verdict-3", "line"),
        ("verdict-4", "line link-5"),
        ("verdict-4-times", "line times"),
        ("verdict-5", "line"),
        ("verdict-6", "entry-1-64 line"),
        ("verdict-6-rate", "line times"),
        ("verdict-6-reply", "line reply-64-64"),
        ("verdict-6-timing", "intervals line"),
        ("verdict-7", "entry-1-5-2 line"),
        ("verdict-7-reply", "line reply-1-4"),
        ("verdict-8", "line path-1-11"),
        ("verdict-8-reply", "line reply-11-4"),
        ("verdict-10", "line path-1-2"),
        ("verdict-10-reply", "line reply-2-3"),
        ("verdict-10-reply-node", "line path-1-3"),
        ("verdict-11", "entry-1-5 line"),
        ("verdict-11-reply", "line reply-3-1"),
        ("verdict-12", ""),
        ("verdict-15", ""),
    ] {
        let page = drawn(&source(&format!("rust/desk/tests/plans/{plan}.plan")));
        assert_eq!(marked(&page), faults, "{plan}");
    }
    let page = drawn(&source("plans/juice.plan"));
    assert_eq!(marked(&page), "line path-9-20");
    let line = page.named("mark")[0].text();
    assert_eq!(line, "    plans/juice.plan:33: path 9 20 8 9");
}

/// Of a device and of a link given twice, and of a link to a device that was not given.
#[test]
fn devices_and_links() {
    for (text, faults) in [
        ("node 1\nnode 2\nnode 1\n", "device-1 line"),
        ("node 1\nnode 2\nlink 0 1 2\nlink 0 2 1\n", "line link-0"),
        ("node 1\nlink 3 1 9\n", "line link-3"),
        ("node 1\nlink 3 1 1\n", "line link-3"),
        ("bytes 01 00 02 05 09\n", "device-5 line"),
        ("node 200\n", "device-200 line"),
    ] {
        let page = drawn(&of_text(text));
        assert_eq!(marked(&page), faults, "{text}");
    }
    let page = drawn(&of_text("node 1\nlink 3 1 9\n"));
    assert!(page.id("device-9").unwrap().has_class("missing"));
    let page = drawn(&of_text("bytes 01 00 02 05 09\n"));
    assert!(page.id("device-5").unwrap().has_class("unknown"));
}

/// From a plan file the line at fault is that of the field.
#[test]
fn from_bytes() {
    let ran = run(SHOW, &["--page"], &bytes("plans/juice.plan"));
    let page = common::xml::page(ran.text()).unwrap();
    assert_eq!(ran.status, 1);
    assert_eq!(marked(&page), "line path-9-20");
    let line = page.named("mark")[0].text();
    assert!(
        line.starts_with("the field at offset 171: 03 00 04 09 14 "),
        "{line}"
    );
}

/// The verdict stands on top in words, with all that `spwd-show` says of it before it draws the table.
#[test]
fn verdicts_in_words() {
    let (mut refused, mut further) = (0, 0);
    for name in all_plans() {
        let source = source(&name);
        let page = drawn(&source);
        let verdict = judge(source.bytes()).verdict;
        let Some(head) = page.id("verdict").filter(|_| !verdict.is_accepted()) else {
            assert!(page.id("about").is_none(), "{name}");
            assert_eq!(marked(&page), "", "{name}");
            continue;
        };
        refused += 1;
        further += page.id("further").iter().count();
        let number = verdict.number().to_string();
        assert_eq!(head.get("data-verdict"), Some(&number[..]), "{name}");
        let mut said = head.named("strong")[0].text();
        for part in head.named("pre") {
            let blank = if part.get("id").is_some() { "\n" } else { "" };
            said += &format!("\n{blank}{}", part.text().trim_end());
        }
        let shown = shown_page(&source).0.join("\n");
        assert!(shown.starts_with(&said), "{name}: {said}\n\n{shown}");
        let rest = &shown[said.len()..];
        let table = ["\n\ntable (", "\n\nwhat is left"];
        assert!(
            rest.is_empty() || table.iter().any(|table| rest.starts_with(table)),
            "{name}: {rest}"
        );
    }
    assert!(refused > 30 && further > 2, "{refused} {further}");
}

/// Of a file that is too long nothing is drawn; of a damaged one what stands before the damage.
#[test]
fn what_can_be_read() {
    let mut file = bytes("plans/sample-first.plan");
    file[32] ^= 0x40;
    let page = drawn(&Source::file("damaged".to_string(), file.clone()));
    let first = page.named("p")[0].text();
    assert_eq!(first, "Drawn is what stands before the fault.");
    assert_eq!(page.values("data-device").len(), 6);
    assert_eq!(page.values("data-link").len(), 0);
    file.resize(16_385, 1);
    let page = drawn(&Source::file("long".to_string(), file));
    let words: Vec<_> = page.named("p").iter().map(|words| words.text()).collect();
    assert_eq!(
        words,
        [
            "Nothing is drawn of a file that is too long.",
            "No devices.",
            "No entry: nobody may ever start.",
            "No paths.",
        ]
    );
    for (file, number) in [(&b""[..], "12"), (b"node 1\nnode 2\n", "2")] {
        let page = drawn(&Source::file("no plan".to_string(), file.to_vec()));
        assert_eq!(
            page.id("verdict").unwrap().get("data-verdict"),
            Some(number)
        );
        assert_eq!(
            page.named("p")[0].text(),
            "Nothing is drawn of what looks like no plan."
        );
        assert!(page.id("further").is_none());
    }
}

/// Damaged files give pages that are well formed, and no panic.
#[test]
fn damaged_files() {
    let mut chance = common::Chance(0x5eed_0019);
    let whole = bytes("plans/guide-reply.plan");
    for round in 0..400 {
        let mut file = whole.clone();
        for _ in 0..1 + chance.below(4) {
            let place = chance.below(file.len());
            file[place] = chance.byte();
        }
        if round % 5 == 0 {
            file.truncate(chance.below(file.len()));
        }
        drawn(&Source::file("damaged".to_string(), file));
    }
}
