//! Is the box blank: every number of it and of the five.

mod common;

use common::{
    device, entry, first_plan, intervals, least_plan, link, path, plan_a, used_unit, usual_times,
    Driver,
};
use reference::{Event, Refusal, Unit, Watchdog};

impl Driver {
    fn is_blank(&self) -> bool {
        self.unit.is_blank(&self.watchdog)
    }
}

/// Ten nodes around a router, with a path from each of the first nine to the last.
fn nine_initiators() -> Vec<u8> {
    let mut fields: Vec<Vec<u8>> = (0..10).map(|node| device(node, 0)).collect();
    fields.push(device(63, 1));
    fields.extend((0..10).map(|node| link(node, node, 63)));
    fields.extend((0..9).map(|node| path(node, 9, &[node, 9])));
    fields.concat()
}

/// A file for each verdict that refuses.
fn refused_files() -> Vec<(u8, Vec<u8>)> {
    let first = first_plan();
    vec![
        (1, vec![1; 16_385]),
        (2, first[..80].to_vec()),
        (3, [&first[..], &[8, 0, 0]].concat()),
        (4, [first.clone(), intervals(90, 110)].concat()),
        (5, [&first[..], &[6, 0, 0]].concat()),
        (6, plan_a(&[entry(1, 64, 1, &[3])])),
        (7, plan_a(&[entry(1, 0, 1, &[3]), entry(1, 0, 1, &[4])])),
        (8, plan_a(&[entry(1, 0, 1, &[10])])),
        (9, nine_initiators()),
        (10, plan_a(&[path(1, 2, &[0])])),
        (11, plan_a(&[entry(1, 0, 1, &[2])])),
        (12, first[..first.len() - 11].to_vec()),
        (13, plan_a(&[entry(1, 0, 2, &[3]), entry(1, 1, 1, &[3])])),
        (14, plan_a(&[entry(1, 0, 1, &[3, 4]), entry(2, 0, 1, &[4])])),
        (15, plan_a(&[])),
    ]
}

#[test]
fn at_the_start_and_after_a_clear() {
    let mut driver = Driver::cleared();
    assert!(driver.is_blank());
    (driver.unit, driver.watchdog) = used_unit();
    assert!(!driver.is_blank());
    driver.unit.clear(&mut driver.watchdog);
    assert!(driver.is_blank());
}

#[test]
fn not_after_an_accepted_load() {
    let timed = [first_plan(), usual_times(39_450)].concat();
    for file in [least_plan(0, 1), first_plan(), timed] {
        let mut driver = Driver::new(&file);
        assert!(!driver.is_blank());
        // The plan alone is enough.
        driver.watchdog = Watchdog::new();
        assert!(!driver.is_blank());
    }
}

#[test]
fn after_every_refused_load() {
    for (number, file) in refused_files() {
        let (unit, watchdog) = used_unit();
        let mut driver = Driver { unit, watchdog };
        let verdict = driver.unit.load(&file, &mut driver.watchdog);
        assert_eq!(verdict.number(), number);
        assert!(driver.is_blank(), "{number}");
    }
}

#[test]
fn not_in_the_course_of_events() {
    let mut driver = Driver::new(&first_plan());
    driver.request(1, 3, 0, 100);
    assert!(!driver.is_blank());
    driver.time_code(0, 0);
    assert!(!driver.is_blank());
    driver.reply(1, 0, 0);
    assert!(!driver.is_blank());
    driver.watchdog = Watchdog::new();
    assert!(!driver.is_blank());
}

#[test]
fn events_that_are_refused_leave_it_blank() {
    let mut driver = Driver::cleared();
    let events = [
        Event::TimeCode { byte: 0, clock: 7 },
        Event::Request {
            initiator: 1,
            target: 3,
            kind: 0,
            length: 100,
        },
        Event::Reply {
            initiator: 1,
            number: 0,
            status: 0,
        },
        Event::Reading { clock: 7 },
    ];
    for event in events {
        driver.refuses(event, 136, Refusal::NoPlan);
        assert!(driver.is_blank(), "{event:?}");
    }
}

#[test]
fn each_of_the_five_counts() {
    let unit = Unit::new();
    assert!(unit.is_blank(&Watchdog::default()));
    for number in [1, 2, 0x100, 0x8000_0000, u32::MAX] {
        let none = Watchdog::new();
        let one_lent = [
            Watchdog {
                last: number,
                ..none
            },
            Watchdog {
                seen: number,
                ..none
            },
            Watchdog {
                reported: number,
                ..none
            },
            Watchdog {
                least: number,
                ..none
            },
            Watchdog {
                greatest: number,
                ..none
            },
        ];
        for five in one_lent {
            assert!(!unit.is_blank(&five), "{five:?}");
        }
    }
}
