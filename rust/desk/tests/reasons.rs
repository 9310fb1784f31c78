//! Whatever is refused is put into words: plans damaged by chance, until every verdict was seen, and those that slot times and replies can
//! get.

mod common;

use common::{bytes, damaged, plans, Chance};
use desk::judge::judge;
use desk::page::page;
use desk::plan::Plan;
use desk::source::Source;
use spwd::{Fault, Verdict};
use std::collections::BTreeSet;

/// The first part of a page behind the verdict's own lines; an empty line parts them.
fn behind(lines: &[String]) -> &[String] {
    lines.split(String::is_empty).nth(1).unwrap_or(&[])
}

/// A part that is not about the verdict's own fault.
fn of_others(part: &[String]) -> bool {
    let heads = ["further faults", "all ", "what is left without ", "table "];
    heads.iter().any(|head| part[0].starts_with(head))
}

/// What a page must say beside the card's words.
fn explained(file: &[u8], verdict: &Verdict, lines: &[String]) {
    let behind = behind(lines);
    let indented = behind
        .iter()
        .filter(|line| line.starts_with("    "))
        .count();
    match *verdict {
        Verdict::Accepted(_) => assert!(behind.len() > 4),
        Verdict::Refused(Fault::File {
            number: Verdict::FILE_TOO_LONG,
            ..
        }) => assert!(behind.is_empty()),
        Verdict::Refused(Fault::File {
            number: Verdict::NO_INTERVALS,
            ..
        }) => assert!(behind.is_empty() || of_others(behind), "{lines:?}"),
        Verdict::Refused(Fault::File {
            number: Verdict::NO_ENTRY,
            ..
        }) => no_entry(&Plan::of(file), behind),
        Verdict::Refused(Fault::File { place, .. }) => {
            assert!(behind[0].starts_with(&format!("the field at offset {place}: ")));
            let field = desk::fields::fields(file)
                .into_iter()
                .find(|field| field.offset == place.into());
            let said = usize::from(field.unwrap().item().is_some());
            assert!(indented > said, "{verdict}: {lines:?}");
        }
        Verdict::Refused(Fault::Overrun { .. }) => {
            let entries = behind
                .iter()
                .filter(|line| line.starts_with("  entry of "))
                .count();
            assert!(entries >= 2, "{verdict}: {lines:?}");
        }
        Verdict::Refused(Fault::Clash { link, .. }) => {
            // Behind each of the two entries stands a way of it over the link.
            let parts: Vec<_> = behind
                .split(|line| line.starts_with("  entry of "))
                .collect();
            let walk = |line: &String| line.contains(&format!(" ={link}= "));
            let walks = parts[1..].iter().filter(|part| part.iter().any(walk));
            assert!(
                parts.len() == 3 && walks.count() == 2,
                "{verdict}: {lines:?}"
            );
        }
    }
}

/// How many of each the plan has, then every initiator.
fn no_entry(plan: &Plan, behind: &[String]) {
    let (devices, links, paths) = (plan.devices.len(), plan.links.len(), plan.paths.len());
    let counts = format!("devices {devices}, links {links}, paths {paths}, entries 0: ");
    assert!(behind[0].starts_with(&counts), "{behind:?}");
    for initiator in plan.initiators() {
        let head = format!("  initiator {initiator}: no entry; paths to ");
        assert!(
            behind.iter().any(|line| line.starts_with(&head)),
            "{behind:?}"
        );
    }
}

/// What is damaged: the plans of the project, and others that some verdicts are near at hand of.
fn whole_files() -> Vec<Vec<u8>> {
    let mut whole: Vec<_> = plans("plans").iter().map(|plan| bytes(plan)).collect();
    // A plan with 128 paths, so that one more is at hand, and one that is too long.
    whole.push(many_paths());
    whole.push(vec![1; 16_385]);
    // Timing and slot times alone, so that one of them is soon given twice.
    let alone = desk::form::compile(b"intervals 90 110\ntimes 200 0 0 0 0 30000");
    whole.push(alone.unwrap().bytes);
    // A reply of every path; one that is given twice; and two that meet the other's command.
    for name in ["replies", "verdict-7-reply", "verdict-14-reply"] {
        whole.push(bytes(&format!("rust/desk/tests/plans/{name}.plan")));
    }
    whole
}

#[test]
fn every_refusal_is_explained() {
    let whole = whole_files();
    let mut chance = Chance(0x5eed_0003);
    let mut seen = [0; 16];
    let (mut of_tags, mut by_a_reply) = (BTreeSet::new(), 0);
    for _ in 0..20_000 {
        let plan = &whole[chance.below(whole.len())];
        let file = damaged(&mut chance, plan);
        let verdict = judge(&file).verdict;
        let source = Source::file("a file".to_string(), file.clone());
        let (lines, accepted) = page(&source);
        assert_eq!(lines[0], verdict.to_string());
        assert_eq!(accepted, verdict.number() == 0);
        explained(&file, &verdict, &lines);
        seen[usize::from(verdict.number())] += 1;
        if let Verdict::Refused(Fault::File { number, place }) = verdict {
            let tag = file.get(usize::from(place));
            of_tags.extend(tag.map(|&tag| (tag, number)));
        }
        if let Verdict::Refused(Fault::Clash { link, .. }) = verdict {
            let who = format!("  link {link}: the ");
            by_a_reply += usize::from(behind(&lines)[1].starts_with(&who));
        }
    }
    assert!(seen.iter().all(|&count| count > 0), "{seen:?}");
    for (tag, numbers) in [(6, &[2, 4, 5, 6][..]), (7, &[2, 5, 6, 7, 8, 10, 11])] {
        let seen = |number: &u8| of_tags.contains(&(tag, *number));
        assert!(numbers.iter().all(seen), "{tag}: {of_tags:?}");
    }
    assert!(!of_tags.contains(&(7, 9)), "{of_tags:?}");
    assert!(by_a_reply > 0);
}

/// A star of 8 initiators and 16 further nodes, each initiator with a path to each of these, and one entry.
fn many_paths() -> Vec<u8> {
    let mut text = String::new();
    for node in 0..24 {
        text += &format!("node {node}\n");
    }
    text += "router 30\n";
    for node in 0..24 {
        text += &format!("link {node} {node} 30\n");
    }
    for initiator in 0..8 {
        for target in 8..24 {
            text += &format!("path {initiator} {target} {initiator} {target}\n");
        }
    }
    text += "entry 0 0 1 8\nintervals 90 110\n";
    let file = desk::form::compile(text.as_bytes()).unwrap().bytes;
    assert_eq!(judge(&file).verdict.to_string(), "ACCEPTED 25 24 128 1");
    file
}
