//! The table on a page, read back: it says of every slot what the plan's entries say.

mod common;

use common::Chance;
use desk::form::compile;
use desk::page::page;
use desk::source::Source;
use std::collections::HashMap;
use std::fmt::Write;

/// What a slot of an initiator is: free, the first of an entry with these targets, or a later one of it.
#[derive(Clone, Debug, PartialEq, Eq)]
enum Slot {
    Free,
    Begins(Vec<u8>),
    Runs,
}

type Table = Vec<Vec<Slot>>;

/// Eight initiators 0 to 7, each with a router and six targets of its own, so that no two can clash.
fn network() -> String {
    let mut text = String::new();
    for device in 0..64 {
        let kind = if (8..16).contains(&device) {
            "router"
        } else {
            "node"
        };
        writeln!(text, "{kind} {device}").unwrap();
    }
    for link in (0..8).chain(16..64) {
        let router = if link < 8 {
            8 + link
        } else {
            8 + (link - 16) / 6
        };
        writeln!(text, "link {link} {link} {router}").unwrap();
    }
    for target in 16..64 {
        let initiator = (target - 16) / 6;
        writeln!(text, "path {initiator} {target} {initiator} {target}").unwrap();
    }
    text
}

/// Entries of one initiator, once round the table from a slot by chance, written to the text.
fn entries(chance: &mut Chance, initiator: u8, free: usize, text: &mut String) -> Vec<Slot> {
    let mut slots = vec![Slot::Free; 64];
    let (first, mut at) = (chance.below(64), 0);
    while at < 64 {
        if chance.below(100) < free {
            at += 1;
            continue;
        }
        let span = (1 + chance.below(16) / (1 + chance.below(16))).min(64 - at);
        let mut targets: Vec<u8> = (0..6).filter(|_| chance.below(2) == 0).collect();
        targets
            .iter_mut()
            .for_each(|target| *target += 16 + 6 * initiator);
        if targets.is_empty() {
            targets.push(16 + 6 * initiator);
        }
        let slot = (first + at) % 64;
        writeln!(
            text,
            "entry {initiator} {slot} {span} {}",
            desk::fields::numbers(&targets)
        )
        .unwrap();
        slots[slot] = Slot::Begins(targets);
        (1..span).for_each(|later| slots[(slot + later) % 64] = Slot::Runs);
        at += span;
    }
    slots
}

/// The letters below the table, each with its targets.
fn letters(lines: &[String]) -> HashMap<&str, Vec<u8>> {
    let legend = lines
        .iter()
        .filter_map(|line| line.trim_start().split_once(": "));
    legend
        .filter(|(name, _)| name.chars().all(|letter| letter.is_ascii_uppercase()))
        .map(|(name, targets)| {
            (
                name,
                targets
                    .split(' ')
                    .map(|target| target.parse().unwrap())
                    .collect(),
            )
        })
        .collect()
}

/// One block's row of an initiator: sixteen cells of four columns, behind a mark and before one.
fn cells(line: &str, letters: &HashMap<&str, Vec<u8>>) -> Vec<Slot> {
    let line = format!("{line:<72}");
    let slots: Vec<_> = (0..16)
        .map(
            |cell| match line[8 + 4 * cell..12 + 4 * cell].trim_end_matches([' ', '=']) {
                "." => Slot::Free,
                "" => Slot::Runs,
                name => Slot::Begins(
                    letters
                        .get(name)
                        .cloned()
                        .unwrap_or_else(|| vec![name.parse().unwrap()]),
                ),
            },
        )
        .collect();
    // A cell reaches into the next exactly if that goes on with it, and so do the marks at both ends.
    for (cell, slot) in slots.iter().enumerate() {
        let before = if cell == 0 { '>' } else { '=' };
        assert_eq!(
            line[..8 + 4 * cell].ends_with(before),
            *slot == Slot::Runs,
            "{line}"
        );
    }
    slots
}

fn table(lines: &[String]) -> Table {
    let letters = letters(lines);
    let mut table = vec![Vec::new(); 8];
    let mut rows = lines.iter().skip_while(|line| !line.starts_with("table "));
    while let Some(heading) = rows.find(|line| line.starts_with("  slot  ")) {
        let first = table[0].len();
        assert!(
            heading.starts_with(&format!("  slot  {first} ")),
            "{heading}"
        );
        for (initiator, row) in table.iter_mut().enumerate() {
            let line = rows.next().unwrap();
            assert!(line.starts_with(&format!("{initiator:>6} ")), "{line}");
            row.extend(cells(line, &letters));
        }
    }
    table
}

#[test]
fn says_the_entries() {
    let mut chance = Chance(0x5eed_0004);
    let mut most = 0;
    for _ in 0..200 {
        let mut text = network();
        let free = chance.below(100);
        let drawn: Table = (0..8)
            .map(|initiator| entries(&mut chance, initiator, free, &mut text))
            .collect();
        text += "intervals 90 110\n";
        let bytes = compile(text.as_bytes()).unwrap().bytes;
        let (lines, accepted) = page(&Source::file("a file".to_string(), bytes));
        assert!(accepted, "{}", lines[0]);
        assert!(lines.iter().all(|line| line.len() <= 80));
        assert_eq!(table(&lines), drawn, "{text}");
        most = most.max(letters(&lines).len());
    }
    assert!(most > 52, "{most}");
}
