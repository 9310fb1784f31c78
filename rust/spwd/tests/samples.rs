//! The samples of document 01, as the change requests leave them.

mod common;

use common::{first, plan_a, under, INTERVALS};
use spwd::{Counts, Fault, Refusal, Spwd, Verdict, LENGTH_MOST, READ, RECORDS_ROOM};

#[track_caller]
fn prints(file: &[u8], line: &str) {
    let verdict = Verdict::from(Spwd::new().load(file));
    assert_eq!(verdict.line().as_str(), format!("{line}\n"));
    assert_eq!(verdict.line().as_bytes(), format!("{line}\n").as_bytes());
    assert_eq!(verdict.to_string(), line);
}

#[test]
fn verdicts_of_plan_a() {
    prints(&first(), "ACCEPTED 6 5 4 2");
    prints(
        &plan_a(&[&[1, 0, 1, 3, 4], &[2, 0, 1, 4]]),
        "REFUSED 14 0 1 2 3",
    );
    prints(
        &plan_a(&[&[1, 63, 2, 3], &[2, 0, 1, 3]]),
        "REFUSED 14 0 1 2 2",
    );
    prints(
        &plan_a(&[&[1, 63, 1, 3], &[2, 0, 1, 3]]),
        "ACCEPTED 6 5 4 2",
    );
    prints(&plan_a(&[&[1, 63, 2, 3], &[1, 0, 1, 3]]), "REFUSED 13 1 63");
}

#[test]
fn verdicts_of_small_files() {
    prints(&[], "REFUSED 12 0");
    prints(&INTERVALS, "REFUSED 15 11");
    prints(&INTERVALS.repeat(2), "REFUSED 4 11");
    prints(&[6, 0, 0], "REFUSED 5 0");
    prints(&[7, 0, 0], "REFUSED 5 0");
    prints(&[8, 0, 0], "REFUSED 3 0");
    prints(&[0; 16_385], "REFUSED 1 0");
    prints(&[0; 16_384], "REFUSED 3 0");
}

#[test]
fn verdicts_as_types() {
    let mut spwd = Spwd::new();
    let counts = Counts {
        devices: 6,
        links: 5,
        paths: 4,
        entries: 2,
    };
    assert_eq!(spwd.load(&first()), Ok(counts));
    assert_eq!(Verdict::Accepted(counts).numbers(), [0, 6, 5, 4, 2]);
    let clash = Fault::Clash {
        slot: 0,
        smaller: 1,
        greater: 2,
        link: 3,
    };
    assert_eq!(
        spwd.load(&plan_a(&[&[1, 0, 1, 3, 4], &[2, 0, 1, 4]])),
        Err(clash)
    );
    assert_eq!(Verdict::Refused(clash).numbers(), [14, 0, 1, 2, 3]);
    let overrun = Fault::Overrun {
        initiator: 1,
        slot: 63,
    };
    assert_eq!(
        spwd.load(&plan_a(&[&[1, 63, 2, 3], &[1, 0, 1, 3]])),
        Err(overrun)
    );
    assert_eq!(Verdict::Refused(overrun).numbers(), [13, 1, 63, 0, 0]);
    let twice = Fault::File {
        number: Verdict::TAG_ORDER,
        place: 11,
    };
    assert_eq!(spwd.load(&INTERVALS.repeat(2)), Err(twice));
    assert_eq!(Verdict::Refused(twice).numbers(), [4, 11, 0, 0, 0]);
    let no_entry = Fault::File {
        number: Verdict::NO_ENTRY,
        place: 11,
    };
    assert_eq!(spwd.load(&INTERVALS), Err(no_entry));
    assert_eq!(Verdict::Refused(no_entry).numbers(), [15, 11, 0, 0, 0]);
    assert_eq!(
        [twice, overrun, clash, no_entry].map(|fault| fault.number()),
        [4, 13, 14, 15]
    );
    assert_eq!(clash.to_string(), "REFUSED 14 0 1 2 3");
    assert!(Verdict::from(Ok(counts)).is_accepted());
    assert!(!Verdict::from(Err(clash)).is_accepted());
}

#[test]
fn the_line_leaves_the_buffer_beyond_it() {
    let mut line = [0xa5; 40];
    let verdict = Verdict::from(Spwd::new().load(&first()));
    let size = verdict.print(&mut line);
    assert_eq!(&line[..size], b"ACCEPTED 6 5 4 2\n");
    assert!(line[size..].iter().all(|&byte| byte == 0xa5));
}

#[test]
fn lengths_of_requests() {
    let mut spwd = under(&first());
    assert_eq!(spwd.request(1, 3, READ, 256), Ok(0));
    assert_eq!(spwd.request(1, 3, READ, 257), Err(Refusal::NOT_PERMITTED));
    assert_eq!(
        spwd.request(1, 3, READ, LENGTH_MOST + 1),
        Err(Refusal::LENGTH_OVER_MOST)
    );
}

#[test]
fn a_start_and_its_lateness() {
    let mut spwd = under(&first());
    let mut buffer = [0xa5; RECORDS_ROOM];
    assert_eq!(spwd.request(1, 3, READ, 100), Ok(0));
    assert_eq!(spwd.time_code(0, 1_000, &mut buffer), Ok(1));
    assert_eq!(buffer[..8], [5, 1, 3, 0, 0, 0, 0, 0x64]);
    assert_eq!(spwd.time_code(1, 1_100, &mut buffer), Ok(1));
    assert_eq!(buffer[..8], [4, 1, 3, 1, 0, 0, 0, 0x64]);
    assert!(buffer[8..].iter().all(|&byte| byte == 0xa5));
    assert_eq!(spwd.reply(1, 0, 0), Err(Refusal::NOTHING_LIVE));
}

/// The first byte of the record of a time-code so long after one at this clock, 0 if there is none.
fn watched(clock: u32, elapsed: u32) -> u8 {
    let mut spwd = under(&first());
    let mut buffer = [0; RECORDS_ROOM];
    assert_eq!(spwd.time_code(5, clock, &mut buffer), Ok(0));
    let next = clock.wrapping_add(elapsed);
    let count = spwd.time_code(6, next, &mut buffer).unwrap();
    assert!(count <= 1);
    buffer[0] * count
}

#[test]
fn early_and_late() {
    for clock in [0, 1_000, 4_294_967_290] {
        for (elapsed, kind) in [(0, 1), (89, 1), (90, 0), (100, 0), (110, 0), (111, 2)] {
            assert_eq!(watched(clock, elapsed), kind, "{clock} {elapsed}");
        }
        assert_eq!(watched(clock, u32::MAX), 2, "a clock stepped back by one");
    }
}
