//! All faults of a plan: the fields that the box refuses one after another, and all overruns and clashes, the first of which is its own.

mod common;

use common::{bytes, damaged, plans, run, Chance, COMPILE, SHOW};
use desk::further::{further, sifted};
use desk::judge::judge;
use desk::overlaps::{clashes, overruns, slots_in_words};
use desk::plan::Plan;
use desk::sets::members;
use desk::source::Source;
use spwd::{Fault, Spwd, Verdict};
use std::collections::BTreeSet;

fn source(file: &[u8]) -> Source {
    Source::file("a file".to_string(), file.to_vec())
}

/// The first fault is the verdict's own, and without all of them the box refuses no field.
fn sifts(file: &[u8]) {
    let source = source(file);
    let sifted = sifted(&source);
    let verdict = judge(file).verdict;
    let first = sifted.faulty.first();
    match verdict {
        Verdict::Refused(Fault::File { number, place }) if (2..=11).contains(&number) => {
            let first = first.unwrap();
            assert_eq!((first.number, first.field.offset), (number, place.into()));
            assert!(!first.reasons.is_empty(), "{verdict}");
        }
        _ => assert!(first.is_none(), "{verdict}"),
    }
    let kept: Vec<_> = sifted.kept.iter().map(|field| field.bytes).collect();
    let left = judge(&kept.concat()).verdict.number();
    assert!(!(2..=11).contains(&left), "{verdict}: {left}");
    for faulty in &sifted.faulty {
        assert!(!faulty.reasons.is_empty(), "{verdict}: {faulty:?}");
    }
    if left != Verdict::FILE_TOO_LONG {
        overlaps(&kept.concat());
    }
}

/// Overruns and clashes of a file without a faulty field against the box's verdict, and against reading all entries for each place.
fn overlaps(file: &[u8]) {
    let plan = Plan::of(file);
    let (overruns, clashes) = (overruns(&plan), clashes(&plan));
    let first = overruns.first().map(|found| Fault::Overrun {
        initiator: found.entry.initiator,
        slot: found.entry.slot,
    });
    let first = first.or(clashes.first().map(|found| {
        let [slot, smaller, greater, link] = found.first();
        Fault::Clash {
            slot,
            smaller,
            greater,
            link,
        }
    }));
    match (Spwd::new().load(file), first) {
        (Ok(_), None) => {}
        (Err(fault), Some(first)) if fault.number() == first.number() => assert_eq!(fault, first),
        // What comes before 13 and 14.
        (Err(fault), _) => assert!([12, 15].contains(&fault.number()), "{fault}: {first:?}"),
        (Ok(_), Some(first)) => panic!("accepted, but {first}"),
    }
    assert_eq!(overruns.len(), overruns_by_all(&plan));
    let mut found = BTreeSet::new();
    for clash in &clashes {
        let [_, smaller, greater, _] = clash.first();
        for slot in members(clash.slots) {
            found.extend(
                members(clash.links)
                    .iter()
                    .map(|&link| [slot, smaller, greater, link]),
            );
        }
    }
    assert_eq!(found, clashes_by_all(&plan));
}

fn overruns_by_all(plan: &Plan) -> usize {
    let runs_on = plan.entries.iter().filter(|entry| {
        let mut others = plan.entries_of(entry.initiator);
        others.any(|other| other.slot != entry.slot && entry.covers(other.slot))
    });
    runs_on.count()
}

/// Slot, two initiators, link: as document 01 says when two clash.
fn clashes_by_all(plan: &Plan) -> BTreeSet<[u8; 4]> {
    let may_use = |initiator, slot| -> BTreeSet<u8> {
        let entries = plan
            .entries_of(initiator)
            .filter(|entry| entry.covers(slot));
        let targets = entries.flat_map(|entry| entry.targets);
        let links = targets.flat_map(|&target| {
            let path = plan.path(initiator, target).map(|path| path.links.to_vec());
            let reply = plan
                .reply(initiator, target)
                .map(|reply| reply.links.to_vec());
            [path, reply].into_iter().flatten().flatten()
        });
        links.collect()
    };
    let initiators = plan.initiators();
    let mut found = BTreeSet::new();
    for slot in 0..64 {
        for (place, &smaller) in initiators.iter().enumerate() {
            let links = may_use(smaller, slot);
            for &greater in &initiators[place + 1..] {
                let both = may_use(greater, slot);
                let both = both.intersection(&links);
                found.extend(both.map(|&link| [slot, smaller, greater, link]));
            }
        }
    }
    found
}

#[test]
fn plans_of_the_project() {
    for plan in plans("plans") {
        sifts(&bytes(&plan));
    }
    for plan in plans("rust/desk/tests/plans") {
        if !plan.ends_with("complaints.plan") {
            sifts(&bytes(&plan));
        }
    }
}

#[test]
fn damaged_plans() {
    let whole: Vec<_> = plans("plans").iter().map(|plan| bytes(plan)).collect();
    let mut chance = Chance(0x5eed_0020);
    for _ in 0..1_500 {
        let plan = &whole[chance.below(whole.len())];
        let mut file = plan.clone();
        for _ in 0..1 + chance.below(4) {
            file = damaged(&mut chance, &file);
        }
        sifts(&file);
    }
}

/// Tables by chance over a network with shared links and replies of their own: overruns, clashes, both and neither.
#[test]
fn tables_by_chance() {
    let mut chance = Chance(0x5eed_0021);
    let mut seen = [0; 16];
    for _ in 0..600 {
        let file = table(&mut chance);
        overlaps(&file);
        seen[usize::from(judge(&file).verdict.number())] += 1;
    }
    let [accepted, overrun, clash] = [0, 13, 14].map(|number| seen[number]);
    assert!(accepted > 20 && overrun > 20 && clash > 20, "{seen:?}");
}

fn table(chance: &mut Chance) -> Vec<u8> {
    let mut text = "node 1\nnode 2\nnode 3\nnode 4\nnode 5\nrouter 10\nrouter 11\nlink 0 1 10\nlink 1 2 10\n\
                    link 2 3 11\nlink 3 4 10\nlink 4 5 11\nlink 5 10 11\nlink 6 10 11\n\
                    path 1 4 0 3\npath 1 5 0 5 4\npath 2 4 1 3\npath 2 5 1 6 4\npath 3 4 2 5 3\npath 3 5 2 4\n"
        .to_string();
    let mut at = BTreeSet::new();
    for _ in 0..1 + chance.below(6) {
        let (initiator, slot, span) = (1 + chance.below(3), chance.below(64), 1 + chance.below(8));
        if at.insert((initiator, slot)) {
            let targets = ["4", "5", "4 5", "5 4"][chance.below(4)];
            text += &format!("entry {initiator} {slot} {span} {targets}\n");
        }
    }
    text += "intervals 90 110\n";
    if chance.below(2) == 0 {
        text += "reply 1 5 4 6 0\nreply 3 4 3 6 2\n";
    }
    desk::form::compile(text.as_bytes()).unwrap().bytes
}

#[test]
fn slots() {
    for (slots, words) in [
        (1, "slot 0"),
        (1 << 63, "slot 63"),
        (0b1110, "slots 1 to 3"),
        (3 << 62 | 1, "slots 62 to 0"),
        (0b1011, "slots 0 1 3"),
    ] {
        assert_eq!(slots_in_words(slots), words);
    }
}

/// A text with these lines in the place of the guide's entries.
fn guide(entries: &str) -> String {
    let text = std::fs::read_to_string(common::root().join("plans/guide.plan")).unwrap();
    let lines = text.lines().filter(|line| !line.starts_with('#'));
    let (before, after): (Vec<_>, Vec<_>) = lines
        .filter(|line| !line.starts_with("entry"))
        .partition(|line| !line.starts_with("intervals"));
    format!("{}\n{entries}\n{}\n", before.join("\n"), after.join("\n"))
}

/// The parts of a page behind the one about the verdict's own fault, up to the table.
fn behind(text: &str) -> String {
    let ran = run(SHOW, &["--text"], text.as_bytes());
    assert_eq!((ran.err.as_str(), ran.status), ("", 1));
    let part = ran.text().split("\n\n").nth(2).unwrap_or_default();
    let part = part.trim_end().to_string();
    let said = run(COMPILE, &["-"], text.as_bytes());
    let end = format!("{part}\nnothing is written; --force writes it all the same\n");
    if !part.contains("table (") {
        assert!(said.err.ends_with(&end), "{}", said.err);
    }
    part
}

#[test]
fn in_words() {
    let both = "entry 1 0 3 20\nentry 1 2 3 21\nentry 1 4 1 21\nentry 2 3 2 20\nentry 2 63 3 20";
    assert_eq!(
        behind(&guide(both)),
        "all overruns:\n\
         \x20 initiator 1: the entry at slot 0 (line 13) covers slots 0 to 2, the next begins at slot 2 (line 14)\n\
         \x20 initiator 1: the entry at slot 2 (line 14) covers slots 2 to 4, the next begins at slot 4 (line 15)\n\
         all clashes:\n\
         \x20 slots 0 to 1, link 2: initiator 1 at slot 0 (line 13), initiator 2 at slot 63 (line 17)"
    );
    let clash = "entry 1 62 4 20 21\nentry 2 63 3 20";
    assert_eq!(
        behind(&guide(clash)),
        "all clashes:\n\
         \x20 slots 63 to 1, link 2: initiator 1 at slot 62 (line 13), initiator 2 at slot 63 (line 14)"
    );
    let fields = "entry 1 64 1 20\nentry 1 0 1 20 20\nentry 3 0 1 20\nentry 1 1 17 20\nentry 1 5 3 20\nentry 1 6 1 20";
    assert_eq!(
        behind(&guide(fields)),
        "further faults, with the fields at fault left out:\n\
         \x20 7: standard input:14: entry 1 0 1 20 20\n\
         \x20   target 20 stands twice\n\
         \x20 8: standard input:15: entry 3 0 1 20\n\
         \x20   initiator 3: no such device was given\n\
         \x20 6: standard input:16: entry 1 1 17 20\n\
         \x20   span 17 is out of range: right is 1 to 16\n\
         all overruns:\n\
         \x20 initiator 1: the entry at slot 5 (line 17) covers slots 5 to 7, the next begins at slot 6 (line 18)"
    );
}

/// One fault alone is not listed once more; behind it stands the table.
#[test]
fn one_alone() {
    for entries in [
        "entry 1 0 3 20\nentry 1 2 1 21",
        "entry 1 0 1 20\nentry 2 0 1 20",
    ] {
        let part = behind(&guide(entries));
        assert!(part.starts_with("table ("), "{part}");
    }
    let part = behind(&guide("entry 1 0 3 20\nentry 1 2 1 22"));
    let head = "what is left without the fields at fault:\ntable (";
    assert!(part.starts_with(head), "{part}");
}

/// What is missing is a further fault, unless a field at fault was it or may have hidden it.
#[test]
fn what_is_missing() {
    let of = |text: &str| {
        let file = desk::form::compile(text.as_bytes()).unwrap().bytes;
        let source = source(&file);
        let fault = Spwd::new().load(&file).unwrap_err();
        further(&source, &sifted(&source), &fault).join("\n")
    };
    let fifteen =
        "  15: the plan has no entry: nobody may ever start, and the network would stay silent";
    let head = "further faults, with the fields at fault left out:\n";
    assert_eq!(of("node 1"), format!("further faults:\n{fifteen}"));
    assert_eq!(
        of("node 64"),
        format!("{head}  12: the timing field is missing\n{fifteen}")
    );
    assert_eq!(of("node 64\nintervals 1 1"), format!("{head}{fifteen}"));
    assert_eq!(
        of("intervals 2 1\ntimes 1 0 0 0 0 0"),
        format!("{head}  6: offset 11: slot times: 1 Mbit/s, slot length 0 ns, latencies in ns: a 0, d 0, f 0, g 0\n    rate 1 is out of range: right is 2 to 400\n{fifteen}")
    );
    assert_eq!(of("entry 1 0 1 2\nintervals 1 1"), "");
    assert_eq!(of("bytes 01 00 01"), "");
    assert_eq!(of("node 1\nnode 1\nbytes 08 00 01 00 01 00"), format!(
        "{head}  3: offset 10: 08 00 01 00\n    tag 08, length 1; tags are 01 to 07\n  2: offset 14: 01 00\n    the file ends here: of 3 bytes of tag and length it has 2"
    ));
}

/// Twenty of each, and how many more.
#[test]
fn twenty_and_how_many_more() {
    let entries: Vec<_> = (0..30).map(|slot| format!("entry 1 {slot} 2 9")).collect();
    let part = behind(&guide(&entries.join("\n")));
    assert_eq!(part.matches("\n  8: standard input:").count(), 20);
    assert!(
        part.ends_with("\n    target 9: no such device was given\n  and 9 more"),
        "{part}"
    );
    let entries: Vec<_> = (0..30)
        .map(|slot| format!("entry 1 {slot} 2 20\nentry 2 {slot} 1 20"))
        .collect();
    let part = behind(&guide(&entries.join("\n")));
    let (overruns, clashes) = part.split_once("\nall clashes:\n").unwrap();
    assert_eq!(overruns.matches("\n  initiator 1: ").count(), 20);
    assert!(overruns.ends_with("\n  and 9 more"), "{overruns}");
    assert_eq!(clashes.matches("  slot ").count(), 20);
    assert!(clashes.ends_with("\n  and 39 more"), "{clashes}");
}

/// A table with one entry over the beginning of another shows both.
#[test]
fn a_table_of_a_refused_plan() {
    let ran = run(
        SHOW,
        &["--text"],
        guide("entry 1 0 5 20\nentry 1 2 2 21").as_bytes(),
    );
    let row = "\n     1  20===== 21========= .   .   .   .   .   .   .   .   .   .   .\n";
    assert!(ran.text().contains(row), "{}", ran.text());
    let ran = run(
        SHOW,
        &["--text"],
        guide("entry 1 2 2 21\nentry 1 0 5 20").as_bytes(),
    );
    assert!(ran.text().contains(row), "{}", ran.text());
}
