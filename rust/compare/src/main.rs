//! compare [SEED [FILES [EVENTS]]]: files and histories drawn from the seed, taken by the proved box and by the reference. At least so many
//! files and events are compared, and then as many time sheets as files. The first difference ends it: what was done, on what file, both
//! results, and status 1. The same where a verdict, refusal or record kind was not reached, a side of what the times of a plan or a sheet
//! decide, a verdict on a reply or a clash by its way, a refusal or count of the next turn or a start at one, or a reason for a box to be
//! blank or not, or to hold the plan of a file or not, and where a plan drawn to be accepted was refused. The last line is "N passed, M
//! failed", N the cases without a difference: files, histories, requests followed to their starts, one history in which transaction numbers
//! run round, plans with times at each bound, and all sheets.

use compare::cases::{Case, Failure};
use compare::random::Random;
use compare::tally::Tally;
use std::process::ExitCode;

const SEED: u64 = 1;
const FILES: u64 = 20_000;
const EVENTS: u64 = 200_000;
/// For so many files the requests under one plan are followed to their starts.
const FILES_TO_FOLLOW: u64 = 50;

struct Sizes {
    seed: u64,
    files: u64,
    events: u64,
}

fn arguments() -> Option<Sizes> {
    let mut numbers = Vec::new();
    for word in std::env::args().skip(1) {
        numbers.push(word.parse().ok()?);
    }
    let number = |place: usize, usual| numbers.get(place).copied().unwrap_or(usual);
    (numbers.len() <= 3).then(|| Sizes {
        seed: number(0, SEED),
        files: number(1, FILES),
        events: number(2, EVENTS),
    })
}

fn main() -> ExitCode {
    let Some(sizes) = arguments() else {
        eprintln!("usage: compare [SEED [FILES [EVENTS]]], each a number");
        return ExitCode::from(2);
    };
    println!("seed {}", sizes.seed);
    let mut tally = Tally::default();
    let mut passed = 0;
    let ended = run(&sizes, &mut tally, &mut passed);
    print!("{tally}");
    let failed = match ended {
        Ok(()) => {
            let missing = tally.missing();
            missing.iter().for_each(|what| println!("FAILED: {what}"));
            missing.len()
        }
        Err((case, failure)) => {
            report(&sizes, &case, &failure);
            1
        }
    };
    println!("{passed} passed, {failed} failed");
    match failed {
        0 => ExitCode::SUCCESS,
        _ => ExitCode::FAILURE,
    }
}

/// A difference, with the name of its case.
type Found = (String, Box<Failure>);

/// Files first, then histories, requests followed to their starts, the round of all numbers, the bounds of times, and sheets. A case has
/// as its number how many passed before it.
fn run(sizes: &Sizes, tally: &mut Tally, passed: &mut u64) -> Result<(), Found> {
    while tally.files < sizes.files {
        let random = Random::of_case(sizes.seed, *passed);
        counted("file case", Case::new(random, tally).file(), passed)?;
    }
    while tally.events < sizes.events {
        let mut random = Random::of_case(sizes.seed, *passed);
        let events = 1 + random.below(4000) as u64;
        let ended = Case::new(random, tally).history(events);
        counted("history case", ended, passed)?;
    }
    for _ in 0..sizes.files.div_ceil(FILES_TO_FOLLOW) {
        let random = Random::of_case(sizes.seed, *passed);
        let ended = Case::new(random, tally).followed();
        counted("requests followed, case", ended, passed)?;
    }
    let random = Random::of_case(sizes.seed, *passed);
    let ended = Case::new(random, tally).round();
    counted("round of numbers, case", ended, passed)?;
    let random = Random::of_case(sizes.seed, *passed);
    let ended = Case::new(random, tally).times();
    counted("bounds of times, case", ended, passed)?;
    let random = Random::of_case(sizes.seed, *passed);
    let ended = Case::new(random, tally).sheets(sizes.files);
    counted("sheets, case", ended, passed)
}

/// One case more without a difference, or the difference with the name and number of its case.
fn counted(name: &str, ended: Result<(), Box<Failure>>, passed: &mut u64) -> Result<(), Found> {
    ended.map_err(|failure| (format!("{name} {passed}"), failure))?;
    *passed += 1;
    Ok(())
}

fn report(sizes: &Sizes, case: &str, failure: &Failure) {
    let Sizes {
        seed,
        files,
        events,
    } = sizes;
    let hex: String = failure
        .file
        .iter()
        .map(|byte| format!("{byte:02x}"))
        .collect();
    println!("FAILED: seed {seed}, {files} files, {events} events: {case}");
    println!("  call       {}", failure.call);
    println!("  file       {hex}");
    println!("  differs    {}", failure.difference.what);
    println!("  proved     {}", failure.difference.proved);
    println!("  reference  {}", failure.difference.reference);
}
