//! Long histories of events.

mod common;

use common::{
    device, entry, first_plan, intervals, least_plan, link, path, plan_a, row_plan, usual_times,
    Driver,
};
use reference::{Answer, Watchdog};

fn record(kind: u8, who: u8, target: u8, value: u8, number: u16, length: u16) -> [u8; 8] {
    let [a, b] = number.to_be_bytes();
    let [c, d] = length.to_be_bytes();
    [kind, who, target, value, a, b, c, d]
}

fn mark(kind: u8, value: u8) -> [u8; 8] {
    [kind, 0, 0, value, 0, 0, 0, 0]
}

const NONE: [[u8; 8]; 0] = [];

/// Initiators 1 to `count`, each joined to the target 40 and more by a link of its own, with the
/// same entry in each of these slots.
fn stars(count: u8, slots: &[u8], span: u8) -> Vec<u8> {
    let initiators = 1..=count;
    let mut file = Vec::new();
    for initiator in initiators.clone() {
        file.extend([device(initiator, 0), device(40 + initiator, 0)].concat());
    }
    for initiator in initiators.clone() {
        file.extend(link(initiator, initiator, 40 + initiator));
    }
    for initiator in initiators.clone() {
        file.extend(path(initiator, 40 + initiator, &[initiator]));
    }
    for initiator in initiators {
        for &slot in slots {
            file.extend(entry(initiator, slot, span, &[40 + initiator]));
        }
    }
    file.extend(intervals(90, 110));
    file
}

#[test]
fn numbers_run_round() {
    let slots: Vec<u8> = (0..64).collect();
    let mut driver = Driver::new(&stars(1, &slots, 1));
    let mut clock = 4_294_900_000u32;
    for count in 0..150_000u32 {
        let number = count as u16;
        let length = (count % 257) as u16;
        let value = (count % 64) as u8;
        assert_eq!(driver.request(1, 41, 0, length), Answer::Taken { number });
        let started = record(5, 1, 41, value, number, length);
        let mut expected = vec![started];
        if count > 0 && (count - 1) % 3 != 0 {
            let before = ((count - 1) % 257) as u16;
            let late = record(4, 1, 41, value, number.wrapping_sub(1), before);
            expected.insert(0, late);
        }
        assert_eq!(driver.time_code(value, clock), expected);
        clock = clock.wrapping_add(100);
        if count % 3 == 0 {
            let ended = Answer::Ended {
                target: 41,
                length,
                status: 9,
                class: 1,
            };
            assert_eq!(driver.reply(1, number, 9), ended);
        }
    }
}

#[test]
fn every_start_has_its_slot() {
    for slot in 0..64u8 {
        let mut driver = Driver::new(&stars(1, &[slot], 1));
        for _ in 0..8 {
            driver.request(1, 41, 0, 1);
        }
        let mut clock = 0;
        for round in 0..3 {
            for value in 0..64 {
                let records = driver.time_code(value, clock);
                clock += 100;
                let started = record(5, 1, 41, value, round, 1);
                let expected = if value == slot {
                    vec![started]
                } else if value == (slot + 1) % 64 && (round > 0 || slot < 63) {
                    let number = if slot == 63 { round - 1 } else { round };
                    vec![record(4, 1, 41, value, number, 1)]
                } else {
                    vec![]
                };
                assert_eq!(records, expected);
            }
        }
    }
}

#[test]
fn eight_end_and_eight_start() {
    let slots: Vec<u8> = (0..64).collect();
    let mut driver = Driver::new(&stars(8, &slots, 1));
    let mut clock = 0;
    let ask = |driver: &mut Driver, number: u16| {
        for initiator in (1..=8).rev() {
            let answer = driver.request(initiator, 40 + initiator, 1, 256);
            assert_eq!(answer, Answer::Taken { number });
        }
    };
    ask(&mut driver, 0);
    assert_eq!(driver.time_code(0, clock).len(), 8);
    for number in 1..200u16 {
        ask(&mut driver, number);
        let value = (number % 64) as u8;
        // Every second one is early.
        let early = number % 2 == 0;
        clock += if early { 89 } else { 100 };
        let mut expected = Vec::new();
        if early {
            expected.push(mark(1, value));
        }
        for initiator in 1..=8 {
            expected.push(record(4, initiator, 40 + initiator, value, number - 1, 256));
        }
        for initiator in 1..=8 {
            expected.push(record(5, initiator, 40 + initiator, value, number, 256));
        }
        assert_eq!(driver.time_code(value, clock), expected);
    }
    // Out of sequence every live one is late and nothing starts.
    ask(&mut driver, 200);
    let mut expected = vec![mark(2, 3), mark(3, 3)];
    expected.extend((1..=8).map(|who| record(4, who, 40 + who, 3, 199, 256)));
    assert_eq!(driver.time_code(3, clock + 111), expected);
    assert_eq!(driver.time_code(4, clock + 211).len(), 8);
}

#[test]
fn spans_run_over_the_end() {
    for span in 1..=16u8 {
        for slot in [0, 47, 48, 49, 60, 62, 63] {
            let mut driver = Driver::new(&stars(1, &[slot], span));
            let length = 256 * u16::from(span);
            driver.request(1, 41, 0, length);
            let started = record(5, 1, 41, slot, 0, length);
            assert_eq!(driver.time_code(slot, 0), [started]);
            let mut clock = 0;
            for later in 1..span {
                clock += 100;
                assert_eq!(driver.time_code((slot + later) % 64, clock), NONE);
            }
            let mut answered = driver.clone();
            let ended = answered.reply(1, 0, 0);
            assert!(matches!(ended, Answer::Ended { .. }));
            let end = (slot + span) % 64;
            assert_eq!(answered.time_code(end, clock + 100), NONE);
            let late = record(4, 1, 41, end, 0, length);
            assert_eq!(driver.time_code(end, clock + 100), [late]);
        }
    }
}

#[test]
fn a_slot_entered_in_its_middle_starts_nothing() {
    let mut driver = Driver::new(&stars(1, &[62], 4));
    driver.request(1, 41, 0, 1);
    assert_eq!(driver.time_code(63, 0), NONE);
    assert_eq!(driver.time_code(0, 100), NONE);
    assert_eq!(driver.time_code(1, 200), NONE);
    for value in 2..62 {
        assert_eq!(driver.time_code(value, 100 + 100 * u32::from(value)), NONE);
    }
    assert_eq!(driver.time_code(62, 6300), [record(5, 1, 41, 62, 0, 1)]);
}

#[test]
fn sequence() {
    for last in 0..64u8 {
        for value in 0..64u8 {
            let mut driver = Driver::new(&stars(2, &[value], 2));
            assert_eq!(driver.time_code(last, 0).len(), 0);
            driver.request(2, 42, 0, 5);
            driver.request(1, 41, 0, 6);
            let expected = if value == (last + 1) % 64 {
                vec![record(5, 1, 41, value, 0, 6), record(5, 2, 42, value, 0, 5)]
            } else {
                vec![mark(3, value)]
            };
            assert_eq!(driver.time_code(value, 100), expected);
            // What came out of sequence counts as the last one.
            let next = (value + 1) % 64;
            assert_eq!(driver.time_code(next, 200), NONE);
            let again = driver.time_code(next, 300);
            assert_eq!(again[0], mark(3, next));
        }
    }
}

/// The slots and numbers of all starts in five epochs, after these requests of one initiator for
/// targets and lengths, which must be taken.
fn starts(file: &[u8], initiator: u8, asked: &[(u8, u16)]) -> Vec<(u8, u16)> {
    let mut driver = Driver::new(file);
    for (number, &(target, length)) in (0..).zip(asked) {
        let answer = driver.request(initiator, target, 0, length);
        assert_eq!(answer, Answer::Taken { number });
    }
    let mut clock = 0;
    let mut order = Vec::new();
    for _ in 0..5 {
        for value in 0..64 {
            for [kind, who, target, at, a, b, c, d] in driver.time_code(value, clock) {
                if kind == 5 {
                    let number = u16::from_be_bytes([a, b]);
                    assert_eq!((who, at), (initiator, value));
                    let length = u16::from_be_bytes([c, d]);
                    assert_eq!(asked[usize::from(number)], (target, length));
                    order.push((value, number));
                }
            }
            clock += 100;
        }
    }
    order
}

#[test]
fn the_oldest_that_the_entry_permits() {
    let file = plan_a(&[
        entry(1, 0, 1, &[3]),
        entry(1, 1, 2, &[3, 4]),
        entry(1, 3, 1, &[4]),
    ]);
    let asked = [
        (4, 300),
        (3, 257),
        (4, 256),
        (3, 256),
        (4, 0),
        (3, 512),
        (3, 0),
        (4, 512),
    ];
    let expected = [
        (0, 3),
        (1, 0),
        (3, 2),
        (0, 6),
        (1, 1),
        (3, 4),
        (1, 5),
        (1, 7),
    ];
    assert_eq!(starts(&file, 1, &asked), expected);
}

#[test]
fn the_oldest_that_fits_in_time() {
    let entries = [
        entry(0, 0, 1, &[1, 7]),
        entry(0, 1, 2, &[1, 7]),
        entry(0, 3, 1, &[7]),
    ];
    // One slot has room for 160 bytes behind one router and for none, but no byte more, behind seven;
    // two slots for 775 and for 615.
    let file = row_plan(&entries, &usual_times(30_750));
    let asked = [
        (7, 1),
        (1, 161),
        (7, 615),
        (1, 160),
        (7, 0),
        (1, 775),
        (1, 0),
    ];
    let expected = [(0, 3), (1, 0), (3, 4), (0, 6), (1, 1), (1, 2), (1, 5)];
    assert_eq!(starts(&file, 0, &asked), expected);
}

#[test]
fn nothing_starts_where_not_even_length_0_fits() {
    // Only two slots are enough for seven routers.
    let entries = [entry(0, 0, 1, &[1, 7]), entry(0, 1, 2, &[7])];
    let file = row_plan(&entries, &usual_times(30_749));
    let expected = [(0, 1), (1, 0), (1, 2)];
    assert_eq!(starts(&file, 0, &[(7, 0), (1, 0), (7, 0)]), expected);
}

#[test]
fn early_and_late() {
    let mut driver = Driver::new(&first_plan());
    let fresh = Watchdog {
        least: 90,
        greatest: 110,
        ..Watchdog::new()
    };
    assert_eq!(driver.watchdog, fresh);
    assert!(!driver.reading(u32::MAX));
    assert_eq!(driver.watchdog, fresh);
    assert_eq!(driver.time_code(0, 1000), NONE);
    assert!(!driver.reading(1110));
    assert!(driver.reading(1111));
    assert!(!driver.reading(1112));
    let seen = Watchdog {
        last: 1000,
        seen: 1,
        reported: 1,
        ..fresh
    };
    assert_eq!(driver.watchdog, seen);
    // Reported already, so no record of kind 2.
    assert_eq!(driver.time_code(1, 1200), NONE);
    assert_eq!(driver.time_code(2, 1311), [mark(2, 2)]);
    assert_eq!(driver.time_code(3, 1400), [mark(1, 3)]);
    // Out of sequence as well.
    assert_eq!(driver.time_code(3, 1401), [mark(1, 3), mark(3, 3)]);
    assert_eq!(driver.time_code(9, 1512), [mark(2, 9), mark(3, 9)]);
    let last = Watchdog {
        last: 1512,
        seen: 1,
        ..fresh
    };
    assert_eq!(driver.watchdog, last);
}

#[test]
fn a_late_or_early_time_code_begins_its_slot() {
    for (elapsed, kind) in [(89, 1), (111, 2)] {
        let mut driver = Driver::new(&first_plan());
        driver.time_code(63, 0);
        driver.request(1, 3, 0, 7);
        let expected = [mark(kind, 0), record(5, 1, 3, 0, 0, 7)];
        assert_eq!(driver.time_code(0, elapsed), expected);
    }
}

#[test]
fn the_five_numbers_are_taken_as_lent() {
    let lent = Watchdog {
        last: 50,
        seen: 7,
        reported: 9,
        least: 10,
        greatest: 5,
    };
    let mut driver = Driver::new(&first_plan());
    driver.watchdog = lent;
    // Reported is yes, so nothing changes.
    assert!(!driver.reading(100));
    assert_eq!(driver.watchdog, lent);
    driver.watchdog.reported = 0;
    assert!(!driver.reading(55));
    assert!(driver.reading(56));
    let reported = Watchdog {
        reported: 1,
        ..lent
    };
    assert_eq!(driver.watchdog, reported);
    // Early even though reported; the box's own first time-code is in sequence all the same.
    driver.watchdog = lent;
    assert_eq!(driver.time_code(33, 59), [mark(1, 33)]);
    let after = Watchdog {
        last: 59,
        seen: 1,
        reported: 0,
        ..lent
    };
    assert_eq!(driver.watchdog, after);
    // Lent as not seen, the box still knows its last value.
    driver.watchdog = Watchdog::new();
    assert_eq!(driver.time_code(33, 59), [mark(3, 33)]);
    assert_eq!(driver.time_code(34, 59), NONE);
    assert_eq!(driver.time_code(35, 60), [mark(2, 35)]);
}

#[test]
fn least_0_is_never_early() {
    let mut driver = Driver::new(&least_plan(0, 1));
    driver.time_code(0, 9);
    assert_eq!(driver.time_code(1, 9), NONE);
    assert_eq!(driver.time_code(2, 10), NONE);
    assert_eq!(driver.time_code(3, 12), [mark(2, 3)]);
}
