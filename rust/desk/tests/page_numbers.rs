//! The numbers on a page: times are those of `spwd-sheet`, turns and waits those that reading all entries gives.

mod common;

use common::pages::{all_plans, cells, drawn, of_text, source};
use common::xml::Node;
use common::{root, run, SHEET};
use desk::fields::{numbers, Entry};
use desk::judge::judge;
use desk::plan::Plan;
use desk::source::Source;
use std::fs;

/// A plan that the box accepts, and its page.
struct Shown {
    text: String,
    source: Source,
    page: Node,
}

/// Every plan that is accepted, and those without slot times and replies with two slot lengths too, if they have few entries.
fn accepted() -> Vec<Shown> {
    let mut texts = Vec::new();
    for name in all_plans() {
        let text = fs::read_to_string(root().join(name)).unwrap();
        let few = text.matches("\nentry ").count() < 40;
        for slot in [20_000, 250_000].into_iter().filter(|_| few) {
            texts.push(format!("{text}times 100 5000 5000 5000 5000 {slot}\n"));
        }
        texts.push(text);
    }
    let mut accepted = Vec::new();
    for text in texts {
        let source = of_text(&text);
        if judge(source.bytes()).verdict.is_accepted() {
            let page = drawn(&source);
            accepted.push(Shown { text, source, page });
        }
    }
    assert!(accepted.len() > 30, "{}", accepted.len());
    accepted
}

/// The largest length that an entry permits to a target: 256 bytes for each slot, or what the slot times say.
fn most(plan: &Plan, entry: &Entry, target: u8) -> Option<u16> {
    let Some(times) = plan.times else {
        return Some(256 * u16::from(entry.span));
    };
    let path = plan.path(entry.initiator, target)?;
    let span = u64::from(entry.span) * u64::from(times.slot_length);
    let routers = plan.routers(&path);
    let fits = |&length: &u16| u64::from(times.time(routers, length).unwrap()) <= span;
    (0..=4_096).take_while(fits).last()
}

/// The slots of entries that permit so many bytes to a target, and the longest way from one to the next.
fn by_entries(plan: &Plan, initiator: u8, target: u8, length: u16) -> (Vec<u8>, usize) {
    let permits = |entry: &&Entry| {
        entry.targets.contains(&target) && most(plan, entry, target) >= Some(length)
    };
    let entries = plan.entries_of(initiator).filter(permits);
    let mut slots: Vec<_> = entries.map(|entry| entry.slot).collect();
    slots.sort_unstable();
    let is_turn = |slot: usize| slots.contains(&((slot % 64) as u8));
    let wait = |&slot: &u8| (1..=64).find(|wait| is_turn(usize::from(slot) + wait));
    let longest = slots.iter().filter_map(wait).max().unwrap_or(0);
    (slots, longest)
}

/// "0 to 3, 62" as numbers.
fn slots(said: &str) -> Vec<u8> {
    let range = |range: &str| match range.split_once(" to ") {
        Some((first, last)) => first.parse().unwrap()..=last.parse().unwrap(),
        None => range.parse().unwrap()..=range.parse().unwrap(),
    };
    said.split(", ").flat_map(range).collect()
}

#[test]
fn turns_as_by_the_entries() {
    let (mut rows, mut others, mut none) = (0, 0, 0);
    for Shown {
        text: name,
        source,
        page,
    } in accepted()
    {
        let held = judge(source.bytes()).held;
        let plan = Plan::of(&held);
        for path in &plan.paths {
            let (initiator, target) = (path.initiator, path.target);
            let pair = format!("{initiator}-{target}");
            let mut found = page.with("data-turns");
            found.retain(|row| row.get("data-turns") == Some(&pair));
            let entries = plan.entries_of(initiator);
            let own = entries.filter(|entry| entry.targets.contains(&target));
            let Some(largest) = own.filter_map(|entry| most(&plan, entry, target)).max() else {
                assert_eq!(
                    cells(found[0])[2],
                    "no turn: no entry permits anything",
                    "{name}"
                );
                none += 1;
                continue;
            };
            let least = by_entries(&plan, initiator, target, 0);
            let longest = by_entries(&plan, initiator, target, largest);
            let mut expected = vec![(0, least.clone())];
            if longest != least {
                expected.push((largest, longest));
            }
            assert_eq!(found.len(), expected.len(), "{name} {pair}");
            others += expected.len() - 1;
            for (row, (length, (turns, wait))) in found.iter().zip(expected.clone()) {
                let said = cells(row);
                let bytes = match expected.len() {
                    1 => format!("0 to {largest}"),
                    _ => length.to_string(),
                };
                assert_eq!(said[2], bytes, "{name} {pair}");
                assert_eq!(said[3], turns.len().to_string(), "{name} {pair}");
                assert_eq!(slots(&said[4]), turns, "{name} {pair}");
                assert_eq!(said[5], wait.to_string(), "{name} {pair}");
                rows += 1;
            }
        }
    }
    assert!(
        rows > 100 && others > 5 && none > 5,
        "{rows} {others} {none}"
    );
}

/// In the guide's plan, and in one where every slot is a turn.
#[test]
fn turns_in_words() {
    let rows = |plan: &str| -> Vec<String> {
        let page = drawn(&source(plan));
        let rows = page.with("data-turns").into_iter();
        rows.map(|row| cells(row).join(" | ")).collect()
    };
    assert_eq!(
        rows("plans/guide.plan"),
        [
            "1 | 20 | 0 to 256 | 1 | 0 | 64",
            "1 | 21 | 0 | 2 | 0, 1 | 63",
            "1 | 21 | 768 | 1 | 1 | 64",
            "2 | 20 | 0 | 2 | 1, 62 | 61",
            "2 | 20 | 768 | 1 | 1 | 64",
        ]
    );
    assert!(rows("plans/always.plan").contains(&"1 | 3 | 0 to 256 | 64 | 0 to 63 | 1".to_string()));
}

/// The rows of `spwd-sheet` between a heading and the next blank line.
fn sheet(plan: &str, heading: &str) -> Vec<String> {
    let ran = run(SHEET, &["--text"], plan.as_bytes());
    let (_, rows) = ran.text().split_once(heading).unwrap();
    let (_, rows) = rows.split_once('\n').unwrap();
    let (rows, _) = rows.split_once("\n\n").unwrap();
    rows.lines().map(String::from).collect()
}

#[test]
fn times_as_on_the_sheet() {
    let mut rows = 0;
    for Shown {
        text: name, page, ..
    } in accepted()
    {
        if page.id("times").is_none() {
            continue;
        }
        let mut sheet = sheet(&name, "time of a transaction in ns, by path and data bytes");
        sheet.retain(|row| row.contains(" to "));
        let shown = page.with("data-times");
        assert_eq!(shown.len(), sheet.len(), "{name}");
        for (row, printed) in shown.into_iter().zip(sheet) {
            let said = cells(row);
            let said = format!("{} to {} {}", said[0], said[1], said[2..].join(" "));
            let printed: Vec<_> = printed.split_ascii_whitespace().collect();
            assert_eq!(said, printed.join(" "), "{name}");
            rows += 1;
        }
    }
    assert!(rows > 100, "{rows}");
}

/// The row with what an entry needs: the only one that names its initiator and its slot.
fn need(page: &Node, entry: &Entry) -> Vec<String> {
    let mut rows: Vec<_> = page.with("data-need").into_iter().map(cells).collect();
    let slot = entry.slot.to_string();
    rows.retain(|row| row[0] == entry.initiator.to_string());
    rows.retain(|row| row[1].split(' ').any(|own| own == slot));
    assert_eq!(rows.len(), 1);
    rows.remove(0)
}

/// What the row should say of an entry's targets, with those that are never permitted if others are.
fn targets(plan: &Plan, entry: &Entry) -> String {
    let targets = entry.targets.iter().copied();
    let never: Vec<u8> = targets
        .filter(|&target| most(plan, entry, target).is_none())
        .collect();
    match never.len() {
        0 => numbers(entry.targets),
        all if all == entry.targets.len() => numbers(entry.targets),
        _ => format!("{}; never {}", numbers(entry.targets), numbers(&never)),
    }
}

/// The times of the largest lengths to an entry's targets, with target and length.
fn longest(plan: &Plan, entry: &Entry) -> Vec<(u64, u64, u64)> {
    let times = plan.times.unwrap();
    let needs = entry.targets.iter().filter_map(|&target| {
        let path = plan.path(entry.initiator, target)?;
        let length = most(plan, entry, target)?;
        let time = times.time(plan.routers(&path), length)?;
        Some((time.into(), target.into(), length.into()))
    });
    needs.collect()
}

/// What an entry needs at most: the largest length on the sheet for its span, to the target where it takes longest.
#[test]
fn needs_as_on_the_sheet() {
    let (mut entries, mut nothing) = (0, 0);
    for Shown { text, source, page } in accepted() {
        let held = judge(source.bytes()).held;
        let plan = Plan::of(&held);
        let Some(times) = plan.times else {
            continue;
        };
        let largest = "largest length in bytes, by path and span of the plan's entries";
        let largest = sheet(&text, largest).join(" ");
        for entry in &plan.entries {
            let said = need(&page, entry);
            let needs = longest(&plan, entry);
            assert_eq!(said[2], entry.span.to_string(), "{text}");
            assert_eq!(said[3], targets(&plan, entry), "{text}");
            entries += 1;
            let Some(time) = needs.iter().map(|need| need.0).max() else {
                assert_eq!(said[4], "never permitted: not even 0 bytes fit", "{text}");
                nothing += 1;
                continue;
            };
            let [length, target, ns, of, percent] =
                [4, 5, 6, 7, 8].map(|cell| said[cell].parse::<u64>().unwrap());
            assert!(needs.contains(&(time, target, length)), "{text}");
            let span = u64::from(entry.span) * u64::from(times.slot_length);
            assert_eq!((ns, of), (time, span), "{text}");
            assert!(100 * ns <= percent * of && 100 * ns > (percent - 1) * of);
            let path = format!("{} to {target}:", entry.initiator);
            let (_, printed) = largest.split_once(&path).unwrap();
            let printed = printed.split(" to ").next().unwrap();
            let length = format!("span {}: {length}", entry.span);
            assert!(printed.contains(&length), "{text}");
        }
    }
    assert!(entries > 100 && nothing > 10, "{entries} {nothing}");
}
