//! Each refusal on either side of its line, and what refusals leave.

mod common;

use common::model::time;
use common::{entry, first_plan, plan_a, row_plan, target_behind, times, usual_times, Driver};
use reference::{Answer, Event, Refusal, Unit, Watchdog};

fn time_code(byte: u8) -> Event {
    Event::TimeCode { byte, clock: 7 }
}

fn request(initiator: u8, target: u8, kind: u8, length: u16) -> Event {
    Event::Request {
        initiator,
        target,
        kind,
        length,
    }
}

fn reply(initiator: u8, number: u16) -> Event {
    Event::Reply {
        initiator,
        number,
        status: 0,
    }
}

/// The first plan with nothing waiting at 1, one live there, and a watchdog like no other.
fn driver() -> Driver {
    let mut driver = Driver::new(&first_plan());
    driver.request(1, 3, 0, 100);
    driver.time_code(0, 1000);
    driver.watchdog = Watchdog {
        last: 11,
        seen: 12,
        reported: 13,
        least: 14,
        greatest: 15,
    };
    driver
}

/// The same after a load with this verdict.
fn after_refused(number: u8, file: &[u8]) -> Driver {
    let mut driver = driver();
    let verdict = driver.unit.load(file, &mut driver.watchdog);
    assert_eq!(verdict.number(), number);
    driver
}

#[test]
fn refusal_20_no_plan() {
    let events = [
        time_code(255),
        request(200, 200, 9, 65_535),
        reply(200, 9),
        Event::Reading { clock: 9 },
    ];
    let mut cleared = driver();
    cleared.unit.clear(&mut cleared.watchdog);
    let timed = [plan_a(&[]), usual_times(39_450)].concat();
    for mut driver in [
        Driver::cleared(),
        cleared,
        after_refused(12, &[]),
        after_refused(15, &plan_a(&[])),
        after_refused(15, &timed),
    ] {
        assert_eq!(driver.unit, Unit::new());
        assert_eq!(driver.watchdog, Watchdog::new());
        for event in events {
            driver.refuses(event, 0, Refusal::NoPlan);
            driver.refuses(event, 136, Refusal::NoPlan);
        }
        assert_eq!(driver.next(200, 200, 65_535, 255), (20, 0));
        driver.watchdog.seen = 1;
        driver.refuses(Event::Reading { clock: 9 }, 0, Refusal::NoPlan);
        assert_eq!(driver.unit.write_out(&mut []), (20, 0));
        let mut out = [0xa5; 20_000];
        assert_eq!(driver.unit.write_out(&mut out), (20, 0));
        assert_eq!(out, [0xa5; 20_000]);
    }
    let mut driver = driver();
    assert_eq!(
        driver.step(Event::Reading { clock: 9 }),
        Answer::Reading { late: false }
    );
}

#[test]
fn refusal_21_upper_bits() {
    for byte in 64..=255 {
        driver().refuses(time_code(byte), 136, Refusal::UpperBits);
        driver().refuses(time_code(byte), 0, Refusal::UpperBits);
    }
    for byte in 0..64 {
        driver().time_code(byte, 7);
    }
}

#[test]
fn refusal_22_no_initiator() {
    let mut driver = driver();
    for initiator in (0..=255).filter(|initiator| ![1, 2].contains(initiator)) {
        driver.refuses(request(initiator, 3, 9, 65_535), 0, Refusal::NoInitiator);
        driver.refuses(reply(initiator, 0), 0, Refusal::NoInitiator);
    }
    assert_eq!(driver.request(2, 4, 0, 0), Answer::Taken { number: 0 });
}

#[test]
fn refusal_23_kind() {
    let mut driver = driver();
    for kind in 2..=255 {
        driver.refuses(request(1, 200, kind, 65_535), 0, Refusal::Kind);
    }
    assert_eq!(driver.request(1, 3, 0, 1), Answer::Taken { number: 1 });
    assert_eq!(driver.request(1, 3, 1, 1), Answer::Taken { number: 2 });
}

#[test]
fn refusal_24_length() {
    let mut driver = Driver::new(&plan_a(&[entry(1, 0, 16, &[3])]));
    driver.refuses(request(1, 200, 0, 4_097), 0, Refusal::Length);
    driver.refuses(request(1, 3, 0, 65_535), 0, Refusal::Length);
    assert_eq!(driver.request(1, 3, 0, 4_096), Answer::Taken { number: 0 });
}

#[test]
fn refusal_25_not_permitted() {
    for span in 1..=16 {
        let entries = [entry(1, 0, span, &[3]), entry(1, 30, 1, &[4])];
        let mut driver = Driver::new(&plan_a(&entries));
        let most = 256 * u16::from(span);
        for length in [0, 1, most - 1, most] {
            assert!(matches!(
                driver.request(1, 3, 0, length),
                Answer::Taken { .. }
            ));
        }
        if span < 16 {
            driver.refuses(request(1, 3, 0, most + 1), 0, Refusal::NotPermitted);
        }
        // The span of one entry and the target of another are not enough.
        driver.refuses(request(1, 4, 0, 257), 0, Refusal::NotPermitted);
        assert_eq!(driver.request(1, 4, 0, 256), Answer::Taken { number: 4 });
        for target in (0..=255).filter(|target| ![3, 4].contains(target)) {
            driver.refuses(request(1, target, 0, 0), 0, Refusal::NotPermitted);
        }
        driver.refuses(request(2, 4, 0, 0), 0, Refusal::NotPermitted);
    }
}

/// Initiator 0 with one entry, for the target behind so many routers, and these times.
fn timed(routers: u8, span: u8, rate: u16, slot_length: u32) -> Driver {
    let entries = [entry(0, 0, span, &[target_behind(routers)])];
    let times = times(rate, [5_000, 600, 70, 0, slot_length]);
    Driver::new(&row_plan(&entries, &times))
}

#[test]
fn refusal_25_by_one_nanosecond() {
    let mut met = 0;
    for routers in 0..8 {
        for rate in [2, 3, 7, 50, 200, 399, 400] {
            for length in [0, 1, 2, 255, 256, 257, 4_095, 4_096] {
                let four = [5_000, 600, 70, 0];
                let both = (routers.into(), routers.into());
                let time = time(both, rate.into(), length.into(), four) as u32;
                for span in [1, 2, 3, 15, 16] {
                    let enough = time.div_ceil(span);
                    if enough > 1_000_000 {
                        continue;
                    }
                    let asked = request(0, target_behind(routers), 0, length);
                    let mut driver = timed(routers, span as u8, rate, enough);
                    assert_eq!(driver.step(asked), Answer::Taken { number: 0 });
                    let mut driver = timed(routers, span as u8, rate, enough - 1);
                    driver.refuses(asked, 0, Refusal::NotPermitted);
                    met += 1;
                }
            }
        }
    }
    assert_eq!(met, 2_031);
}

#[test]
fn times_take_the_place_of_256_bytes() {
    // More than 256 bytes a slot, up to 4,096, and less.
    for (slot_length, most) in [(1_000_000, 4_096), (34_050, 256), (21_300, 1), (21_250, 0)] {
        let entries = [entry(0, 0, 1, &[8])];
        let file = row_plan(&entries, &usual_times(slot_length));
        let mut driver = Driver::new(&file);
        assert_eq!(driver.request(0, 8, 0, most), Answer::Taken { number: 0 });
        let refusal = match most {
            4_096 => Refusal::Length,
            _ => Refusal::NotPermitted,
        };
        driver.refuses(request(0, 8, 0, most + 1), 0, refusal);
    }
}

#[test]
fn refusal_25_of_every_length() {
    let entries = [entry(0, 0, 16, &[1, 2, 3, 4, 5, 6, 7, 8])];
    for slot_length in [0, 1, 1_000] {
        let mut driver = Driver::new(&row_plan(&entries, &usual_times(slot_length)));
        for target in 1..=8 {
            for length in [0, 1, 256, 4_096] {
                driver.refuses(request(0, target, 0, length), 0, Refusal::NotPermitted);
            }
        }
        driver.refuses(request(0, 1, 0, 4_097), 0, Refusal::Length);
    }
}

#[test]
fn refusal_25_reads_the_span_with_its_target() {
    // Three slots for target 1 alone, one for target 2.
    let entries = [
        entry(0, 0, 3, &[1]),
        entry(0, 10, 1, &[2]),
        entry(0, 20, 1, &[1, 2]),
    ];
    let mut driver = Driver::new(&row_plan(&entries, &usual_times(25_000)));
    // What else there is behind one router takes 22,700: 52,300 are left for data and CRC.
    assert_eq!(driver.request(0, 1, 0, 1_045), Answer::Taken { number: 0 });
    driver.refuses(request(0, 1, 0, 1_046), 0, Refusal::NotPermitted);
    // Behind two it takes 24,000.
    assert_eq!(driver.request(0, 2, 0, 19), Answer::Taken { number: 1 });
    driver.refuses(request(0, 2, 0, 20), 0, Refusal::NotPermitted);
    driver.refuses(request(0, 3, 0, 0), 0, Refusal::NotPermitted);
    driver.refuses(request(0, 64, 0, 0), 0, Refusal::NotPermitted);
    driver.refuses(request(0, 255, 0, 0), 0, Refusal::NotPermitted);
}

#[test]
fn refusal_26_line_full() {
    let mut driver = driver();
    for number in 1..=8 {
        assert_eq!(driver.request(1, 3, 0, 1), Answer::Taken { number });
    }
    driver.refuses(request(1, 3, 0, 1), 0, Refusal::LineFull);
    driver.refuses(request(1, 4, 0, 1), 0, Refusal::NotPermitted);
    assert_eq!(driver.request(2, 4, 0, 1), Answer::Taken { number: 0 });
    for byte in 1..64 {
        driver.time_code(byte, 7);
    }
    driver.refuses(request(1, 3, 0, 1), 0, Refusal::LineFull);
    // Early, and the oldest of each initiator starts.
    let kinds = driver.time_code(0, 7).into_iter().map(|record| record[0]);
    assert_eq!(kinds.collect::<Vec<u8>>(), [1, 5, 5]);
    assert_eq!(driver.request(1, 3, 0, 1), Answer::Taken { number: 9 });
    driver.refuses(request(1, 3, 0, 1), 0, Refusal::LineFull);
}

#[test]
fn refusals_27_and_28() {
    let mut driver = driver();
    driver.refuses(reply(2, 0), 0, Refusal::NothingLive);
    driver.refuses(reply(1, 1), 0, Refusal::OtherNumber);
    driver.refuses(reply(1, 65_535), 0, Refusal::OtherNumber);
    let ended = Answer::Ended {
        target: 3,
        length: 100,
        status: 0,
        class: 0,
    };
    assert_eq!(driver.step(reply(1, 0)), ended);
    driver.refuses(reply(1, 0), 0, Refusal::NothingLive);
    // Waiting is not live.
    driver.request(1, 3, 0, 1);
    driver.refuses(reply(1, 1), 0, Refusal::NothingLive);
}

#[test]
fn refusal_29_small_buffer() {
    for buffer in 0..136 {
        driver().refuses(time_code(1), buffer, Refusal::SmallBuffer);
        let mut quiet = Driver::new(&first_plan());
        quiet.refuses(time_code(0), buffer, Refusal::SmallBuffer);
    }
    for buffer in 136..300 {
        let mut driver = driver();
        let mut records = vec![0xa5; buffer];
        let event = time_code(1);
        let answer = driver.unit.step(event, &mut driver.watchdog, &mut records);
        assert_eq!(answer, Answer::Records { count: 1 });
        assert_eq!(records[..8], [4, 1, 3, 1, 0, 0, 0, 100]);
        assert!(records[8..].iter().all(|&byte| byte == 0xa5));
    }
}

#[test]
fn refusal_30_small_room() {
    let driver = driver();
    let size = first_plan().len();
    for room in 0..size {
        let mut out = vec![0xa5; room];
        assert_eq!(driver.unit.write_out(&mut out), (30, 0));
        assert!(out.iter().all(|&byte| byte == 0xa5));
    }
    for room in size..size + 20 {
        let mut out = vec![0xa5; room];
        assert_eq!(driver.unit.write_out(&mut out), (0, size));
        assert_eq!(out[..size], driver.written_out());
        assert!(out[size..].iter().all(|&byte| byte == 0xa5));
    }
}

#[test]
fn only_a_time_code_writes_the_buffer() {
    let mut driver = driver();
    let mut records = [0xa5; 200];
    for event in [
        request(1, 3, 0, 1),
        reply(1, 0),
        Event::Reading { clock: 0 },
    ] {
        let answer = driver.unit.step(event, &mut driver.watchdog, &mut records);
        assert_eq!(answer.number(), 0);
        assert_eq!(records, [0xa5; 200]);
    }
}

#[test]
fn classes_of_status() {
    for status in 0..=255 {
        let expected = match status {
            0 => 0,
            1 | 2 | 3 | 4 | 5 | 6 | 7 | 9 | 10 | 11 | 12 => 1,
            _ => 2,
        };
        let answer = driver().reply(1, 0, status);
        let ended = Answer::Ended {
            target: 3,
            length: 100,
            status,
            class: expected,
        };
        assert_eq!(answer, ended);
    }
}
