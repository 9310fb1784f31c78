//! The proved library beside the reference, in one run: nanoseconds for one call, the least of many rounds, the two sides by turns.
//! Before a file is timed, both must print the same verdict on it, write the same bytes out and name the same turns; no event that is
//! timed is refused but where its row says so.
//! Below the times stands what memory a box of each kind has.

mod events;
mod sides;
mod timing;
mod turns;

use compare::large;
use sides::{Proved, Reference, Side};
use spwd::{Plan, Spwd, WRITTEN_MOST};
use std::hint::black_box;
use timing::{by_turns, print_head, print_row};

fn main() {
    let mut files = std::env::args().skip(1).map(std::fs::read);
    let [plan_a, plan_a_overrun] = std::array::from_fn(|_| match files.next() {
        Some(Ok(file)) => file,
        _ => panic!("usage: bench FILE FILE: plan A, accepted and refused with 13"),
    });
    let maximal = large::maximal();
    let replied = large::replied_round(&maximal);
    print_head();
    loads(&plan_a, &plan_a_overrun, &maximal, &replied);
    write_out("write out plan A", &plan_a);
    write_out("write out a maximal plan", &maximal);
    write_out(
        "write out the same with one entry",
        &large::one_entry(&maximal),
    );
    write_out("write out a maximal plan, with replies", &replied);
    events::print_events(&maximal);
    turns::print_turns(&maximal);
    clear();
    print_memory();
}

fn loads(plan_a: &[u8], plan_a_overrun: &[u8], maximal: &[u8], replied: &[u8]) {
    both_loads("load plan A", plan_a);
    both_loads("load plan A, an entry overrun", plan_a_overrun);
    both_loads("load plan A, with replies", &large::replied(plan_a));
    both_loads("load a maximal plan", maximal);
    both_loads("load a maximal plan, with replies", replied);
    load("load a maximal plan, falling", &large::falling(maximal));
    let overrun = large::overrun(maximal);
    both_loads("load a maximal plan, an entry overrun", &overrun);
    load(
        "load plan A, overrun, with replies",
        &large::replied(plan_a_overrun),
    );
    load(
        "load a maximal plan, overrun, with replies",
        &large::replied_round(&overrun),
    );
    for (part, tags) in [("links", 1..=2), ("paths", 1..=3), ("entries", 1..=4)] {
        let name = format!("load a maximal plan up to its {part}");
        load(&name, &large::only(&Vec::from_iter(tags), maximal));
    }
    load(
        "load a maximal plan without entries",
        &large::only(&[1, 2, 3, 5], maximal),
    );
    let full = large::full();
    load("load a full file", &full);
    load(
        "load a full file up to its entries",
        &large::only(&[1, 2, 3, 4], &full),
    );
}

/// A box of each kind with the file loaded, and the verdict. They must agree on it, on the plan written out, and on the next turns.
fn loaded(file: &[u8]) -> (Proved, Reference, String) {
    let (mut ours, mut theirs) = (Proved::new(), Reference::new());
    let verdict = ours.line(file);
    assert_eq!(verdict, theirs.line(file), "the verdicts differ");
    let (mut out, mut their_out) = ([0xAA; WRITTEN_MOST], [0xAA; WRITTEN_MOST]);
    let sizes = (ours.write_out(&mut out), theirs.write_out(&mut their_out));
    assert_eq!(sizes.0, sizes.1, "the sizes written out differ");
    assert!(out == their_out, "the plans written out differ");
    same_turns(&ours, &theirs);
    (ours, theirs, verdict.trim_end().to_owned())
}

/// Of every initiator that a plan here has to every target, around the length that one slot has room for, from slots at both ends.
fn same_turns(ours: &Proved, theirs: &Reference) {
    for (initiator, target) in (0..9).flat_map(|one| (0..65).map(move |other| (one, other))) {
        for length in [0, 255, 256, 257, 4_096, 4_097] {
            for slot in [0, 1, 31, 62, 63, 64] {
                let turn = ours.next(initiator, target, length, slot);
                let their_turn = theirs.next(initiator, target, length, slot);
                assert_eq!(turn, their_turn, "the next turns differ");
            }
        }
    }
}

/// A plan, and the same with times.
fn both_loads(name: &str, file: &[u8]) {
    load(name, file);
    load(&format!("{name}, with times"), &large::timed(file));
}

fn load(name: &str, file: &[u8]) {
    let (mut ours, mut theirs, verdict) = loaded(file);
    let (least, their_least) = by_turns(
        || {
            black_box(black_box(&mut ours).load(black_box(file)));
        },
        || {
            black_box(black_box(&mut theirs).load(black_box(file)));
        },
    );
    let size = file.len().to_string();
    print_row(name, &size, &verdict, &least, &their_least);
}

fn write_out(name: &str, file: &[u8]) {
    let (ours, theirs, _) = loaded(file);
    let (mut out, mut their_out) = ([0; WRITTEN_MOST], [0; WRITTEN_MOST]);
    let (least, their_least) = by_turns(
        || {
            black_box(black_box(&ours).write_out(black_box(&mut out)));
        },
        || {
            black_box(black_box(&theirs).write_out(black_box(&mut their_out)));
        },
    );
    print_row(name, &file.len().to_string(), "", &least, &their_least);
}

fn clear() {
    let (mut ours, mut theirs) = (Proved::new(), Reference::new());
    let (least, their_least) = by_turns(
        || black_box(&mut ours).clear(),
        || black_box(&mut theirs).clear(),
    );
    print_row("clear", "", "", &least, &their_least);
}

fn print_memory() {
    let watchdog = size_of::<reference::Watchdog>();
    println!(
        "\n{:<50}{:>10}{:>11}",
        "memory, bytes", "proved", "reference"
    );
    for (name, ours, theirs) in [
        ("plan", size_of::<Plan>().to_string(), String::new()),
        (
            "plan, run memory and five numbers",
            size_of::<Spwd>().to_string(),
            (size_of::<reference::Unit>() + watchdog).to_string(),
        ),
    ] {
        println!("{name:<50}{ours:>10}{theirs:>11}");
    }
}
