//! epoch [FILE]: prints three sheets, then loads a plan (FILE, or the first sample of document 01), runs the box for one epoch of 64
//! time-codes with a few requests, replies and clock readings, and prints what it answers: the same as `c/example.c`.

use spwd::{records, Latencies, Plan, Record, Spwd, Verdict};
use spwd::{LENGTH_MOST, READ, RECORDS_ROOM, SLOTS, WRITE, WRITTEN_MOST};
use std::process::ExitCode;

/// plans/sample-first.plan: nodes 1 to 4, routers 10 and 11; 1 may start to 3 and 2 to 4 in slot 0; intervals 90 to 110.
#[rustfmt::skip]
const FIRST_SAMPLE: &[u8] = &[
    1, 0, 2, 1, 0, 1, 0, 2, 2, 0, 1, 0, 2, 3, 0, 1, 0, 2, 4, 0, 1, 0, 2, 10, 1, 1, 0, 2, 11, 1,
    2, 0, 3, 0, 1, 10, 2, 0, 3, 1, 2, 11, 2, 0, 3, 2, 10, 3, 2, 0, 3, 3, 11, 4, 2, 0, 3, 4, 10, 11,
    3, 0, 4, 1, 3, 0, 2, 3, 0, 5, 1, 4, 0, 4, 3, 3, 0, 4, 2, 4, 1, 3, 3, 0, 5, 2, 3, 1, 4, 2,
    4, 0, 4, 1, 0, 1, 3, 4, 0, 4, 2, 0, 1, 4,
    5, 0, 8, 0, 0, 0, 90, 0, 0, 0, 110,
];

fn main() -> ExitCode {
    if !spwd::version_fits() {
        let (ours, archive) = (spwd::VERSION, spwd::version());
        eprintln!("the wrapper has version {ours}, the archive {archive}");
        return ExitCode::from(3);
    }
    sheet(256);
    sheet(LENGTH_MOST + 1);
    sheet2(2, 256);
    let file = match std::env::args_os().nth(1) {
        None => FIRST_SAMPLE.to_vec(),
        Some(name) => match std::fs::read(&name) {
            Ok(file) => file,
            Err(error) => {
                eprintln!("{}: {error}", name.to_string_lossy());
                return ExitCode::from(2);
            }
        },
    };
    let mut spwd = Spwd::new();
    let verdict = Verdict::from(spwd.load(&file));
    print!("{}", verdict.line().as_str());
    if verdict.is_accepted() && runs(&mut spwd) {
        ExitCode::SUCCESS
    } else {
        ExitCode::FAILURE
    }
}

const LATENCIES: Latencies = Latencies {
    a: 5_000,
    d: 5_000,
    f: 5_000,
    g: 5_000,
};

/// How long a transaction of so many bytes takes over four routers at 200 Mbit/s, with 5 us for each latency.
fn sheet(length: u16) {
    match spwd::sheet(4, 200, length, LATENCIES) {
        Ok(sheet) => println!(
            "sheet of {length} bytes: {} ns, {} of them for the data",
            sheet.total, sheet.e
        ),
        Err(refusal) => println!("sheet of {length} bytes: {refusal}"),
    }
}

/// The same where the reply comes home another way, over so many routers.
fn sheet2(reply_routers: u8, length: u16) {
    print!("sheet of {length} bytes, reply over {reply_routers} routers: ");
    match spwd::sheet2(4, reply_routers, 200, length, LATENCIES) {
        Ok(sheet) => println!(
            "{} ns, {} of them for the reply",
            sheet.total,
            sheet.h + sheet.i
        ),
        Err(refusal) => println!("{refusal}"),
    }
}

/// Runs the epoch. False unless the plan comes out again as it went in and a clear leaves the box blank.
fn runs(spwd: &mut Spwd) -> bool {
    epoch(spwd);
    let mut out = [0; WRITTEN_MOST];
    let Ok(size) = spwd.write_out(&mut out) else {
        return false;
    };
    println!("written out: {size} bytes");
    if !spwd.holds(&out[..size], &mut Plan::new()) {
        return false;
    }
    spwd.clear();
    let blank = spwd.is_blank();
    println!("cleared: {}", if blank { "blank" } else { "not blank" });
    blank
}

/// The values 62, 63, 0, 1, .. 61: after 63 comes 0.
fn epoch(spwd: &mut Spwd) {
    // It runs round past its top on the way.
    let mut clock = u32::MAX - 1000;
    for count in 0..SLOTS {
        let value = (62 + count) % SLOTS;
        clock = clock.wrapping_add(after_the_last(value));
        time_code(spwd, value, clock);
        between(spwd, value, clock);
    }
}

/// How long after the one before it the time-code of this value comes: 20 is early, 30 and 40 are late.
fn after_the_last(value: u8) -> u32 {
    match value {
        20 => 89,
        30 | 40 => 111,
        _ => 100,
    }
}

/// What happens between the time-code of this value and the next. What is asked for after 62 starts at the second time-code, as the count
/// of its next turn says. The reading after 39 reports that 40 is late, so 40 does not.
fn between(spwd: &mut Spwd, value: u8, clock: u32) {
    match value {
        62 => {
            next(spwd, 1, 3, 100, value);
            next(spwd, 1, 3, 100, SLOTS);
            request(spwd, 1, 3, READ, 100);
            request(spwd, 1, 3, WRITE, 256);
            request(spwd, 1, 3, READ, 257);
            request(spwd, 1, 4, READ, 8);
            request(spwd, 2, 4, WRITE, 0);
        }
        0 => {
            next(spwd, 1, 3, 256, value);
            reply(spwd, 1, 7, 0);
            reply(spwd, 1, 0, 0);
            reply(spwd, 1, 0, 0);
        }
        1 => reply(spwd, 2, 0, 0),
        39 => {
            reading(spwd, clock.wrapping_add(110));
            reading(spwd, clock.wrapping_add(111));
            reading(spwd, clock.wrapping_add(111));
        }
        _ => {}
    }
}

fn time_code(spwd: &mut Spwd, value: u8, clock: u32) {
    let mut buffer = [0; RECORDS_ROOM];
    match spwd.time_code(value, clock, &mut buffer) {
        Err(refusal) => println!("time-code {value} at {clock}: {refusal}"),
        Ok(0) => {}
        Ok(count) => {
            println!("time-code {value} at {clock}: records {count}");
            records(&buffer, count).for_each(print_record);
        }
    }
}

fn print_record(record: Record) {
    let word = match record.kind {
        Record::EARLY => "early",
        Record::LATE => "late",
        Record::OUT_OF_SEQUENCE => "out of sequence",
        Record::TRANSACTION_LATE => "transaction late",
        Record::STARTED => "started",
        Record::STILL_LIVE => "still live",
        _ => "?",
    };
    print!("  slot {}: {word}", record.value);
    if record.kind >= Record::TRANSACTION_LATE {
        let Record {
            initiator,
            target,
            transaction,
            length,
            ..
        } = record;
        print!(" {initiator} to {target}, number {transaction}, {length} bytes");
    }
    println!();
}

fn request(spwd: &mut Spwd, initiator: u8, target: u8, kind: u8, length: u16) {
    let word = if kind == READ { "read" } else { "write" };
    print!("request {initiator} to {target}, {word}, {length} bytes: ");
    match spwd.request(initiator, target, kind, length) {
        Ok(transaction) => println!("number {transaction}"),
        Err(refusal) => println!("{refusal}"),
    }
}

/// When such a request may start, counted from a slot.
fn next(spwd: &Spwd, initiator: u8, target: u8, length: u16, slot: u8) {
    print!("next turn of {initiator} to {target}, {length} bytes, from slot {slot}: ");
    match spwd.next(initiator, target, length, slot) {
        Ok(count) => println!("count {count}"),
        Err(refusal) => println!("{refusal}"),
    }
}

fn reply(spwd: &mut Spwd, initiator: u8, transaction: u16, status: u8) {
    print!("reply to {initiator}, number {transaction}, status {status}: ");
    match spwd.reply(initiator, transaction, status) {
        Ok(ended) => println!(
            "from {}, {} bytes, class {}",
            ended.target, ended.length, ended.status_class
        ),
        Err(refusal) => println!("{refusal}"),
    }
}

fn reading(spwd: &mut Spwd, clock: u32) {
    match spwd.reading(clock) {
        Ok(late) => println!("reading at {clock}: {}", u8::from(late)),
        Err(refusal) => println!("reading at {clock}: {refusal}"),
    }
}
