//! Does the box hold the plan of a file.

mod common;

use common::model::ModelPlan;
use common::{
    device, entry, first_plan, intervals, least_plan, link, path, plan_a, reply, shuffled, split,
    times, two_ways, used_unit, Driver, Random,
};
use reference::{Unit, Watchdog};

/// The fields of a plan with something of every kind that a number can change in: device 30 stands alone,
/// link 7 is on no path, and links 4 and 9 join the same two routers.
fn rich() -> Vec<Vec<u8>> {
    let more = [
        device(5, 0),
        device(30, 0),
        link(7, 5, 12),
        link(9, 10, 11),
        path(1, 3, &[0, 2]),
        path(1, 4, &[0, 4, 3]),
        path(2, 4, &[1, 3]),
        path(2, 3, &[1, 4, 2]),
        entry(1, 5, 2, &[3, 4]),
        entry(1, 30, 1, &[4]),
        entry(1, 40, 1, &[3]),
        entry(1, 44, 1, &[3]),
        entry(2, 60, 1, &[4]),
        times(200, [5_000, 5_001, 5_002, 5_003, 39_450]),
        reply(1, 3, &[2, 4, 6, 21]),
        reply(2, 4, &[3, 1]),
    ];
    split(&two_ways(&more))
}

/// The rich plan with one field in place of another, which it has.
fn with(old: &[u8], new: &[u8]) -> Vec<u8> {
    let mut fields = rich();
    let place = fields.iter().position(|field| field == old).unwrap();
    fields[place] = new.to_vec();
    fields.concat()
}

/// The rich plan without one of its fields.
fn without(old: &[u8]) -> Vec<u8> {
    with(old, &[])
}

/// Other plans, each by what differs.
fn others() -> Vec<(&'static str, Vec<u8>)> {
    let five = intervals(90, 110);
    let six = times(200, [5_000, 5_001, 5_002, 5_003, 39_450]);
    let six_with = |rate, nanoseconds| with(&six, &times(rate, nanoseconds));
    let (two_targets, at_30) = (entry(1, 5, 2, &[3, 4]), entry(1, 30, 1, &[4]));
    let at_40 = entry(1, 40, 1, &[3]);
    let (way, home) = (path(2, 3, &[1, 4, 2]), reply(1, 3, &[2, 4, 6, 21]));
    vec![
        ("a kind", with(&device(5, 0), &device(5, 1))),
        ("a device", with(&device(30, 0), &device(31, 0))),
        ("no device", without(&device(30, 0))),
        (
            "a link's first end",
            with(&link(7, 5, 12), &link(7, 30, 12)),
        ),
        ("a link's other end", with(&link(7, 5, 12), &link(7, 5, 11))),
        ("a link", with(&link(7, 5, 12), &link(8, 5, 12))),
        ("no link", without(&link(7, 5, 12))),
        ("a path's link", with(&way, &path(2, 3, &[1, 9, 2]))),
        ("no path", without(&way)),
        ("an initiator", with(&at_30, &entry(2, 30, 1, &[4]))),
        ("a slot", with(&at_30, &entry(1, 31, 1, &[4]))),
        ("a span", with(&at_30, &entry(1, 30, 2, &[4]))),
        ("a target", with(&at_30, &entry(1, 30, 1, &[3]))),
        // Both targets have other entries of this span.
        ("one target of many", with(&at_40, &entry(1, 40, 1, &[4]))),
        ("no target", with(&two_targets, &entry(1, 5, 2, &[3]))),
        ("no entry", without(&at_30)),
        ("the least interval", with(&five, &intervals(91, 110))),
        ("no least interval", with(&five, &intervals(0, 110))),
        ("the greatest interval", with(&five, &intervals(90, 111))),
        ("its high byte", with(&five, &intervals(90, 0x0100_006e))),
        (
            "the rate",
            six_with(201, [5_000, 5_001, 5_002, 5_003, 39_450]),
        ),
        (
            "latency a",
            six_with(200, [5_001, 5_001, 5_002, 5_003, 39_450]),
        ),
        (
            "latency d",
            six_with(200, [5_000, 5_000, 5_002, 5_003, 39_450]),
        ),
        (
            "latency f",
            six_with(200, [5_000, 5_001, 5_003, 5_003, 39_450]),
        ),
        (
            "latency g",
            six_with(200, [5_000, 5_001, 5_002, 5_002, 39_450]),
        ),
        (
            "a and d",
            six_with(200, [5_001, 5_000, 5_002, 5_003, 39_450]),
        ),
        (
            "the slot length",
            six_with(200, [5_000, 5_001, 5_002, 5_003, 39_451]),
        ),
        ("no times", without(&six)),
        ("a reply's link", with(&home, &reply(1, 3, &[2, 9, 6, 21]))),
        ("no reply", without(&home)),
        // The same ways for commands and replies, and yet not the same fields.
        ("no reply as the command", without(&reply(2, 4, &[3, 1]))),
    ]
}

fn holds(driver: &Driver, file: &[u8]) -> bool {
    let mut other = used_unit().0;
    let holds = driver.unit.holds(file, &mut other);
    // The other box is then one with the file loaded.
    let mut fresh = Unit::new();
    fresh.load(file, &mut Watchdog::new());
    assert_eq!(other, fresh);
    holds
}

#[test]
fn its_own_file() {
    for file in [first_plan(), least_plan(0, 1), rich().concat()] {
        let driver = Driver::new(&file);
        assert!(holds(&driver, &file));
        assert!(holds(&driver, &driver.written_out()));
    }
}

#[test]
fn every_order_of_its_file() {
    let mut random = Random(11);
    let driver = Driver::new(&rich().concat());
    for _ in 0..200 {
        let other = shuffled(&rich().concat(), &mut random);
        assert!(holds(&driver, &other));
        assert!(holds(&Driver::new(&other), &rich().concat()));
    }
}

#[test]
fn no_plan_that_differs_in_a_number() {
    let rich = rich().concat();
    let driver = Driver::new(&rich);
    for (what, file) in others() {
        // Accepted, and another plan by the model too.
        let model = ModelPlan::judge(&file).unwrap();
        assert_ne!(model.written_out(), driver.written_out(), "{what}");
        assert!(!holds(&driver, &file), "{what}");
        assert!(!holds(&Driver::new(&file), &rich), "{what}");
        assert!(holds(&Driver::new(&file), &file), "{what}");
    }
}

#[test]
fn no_two_of_these() {
    let others = others();
    for (index, (what, file)) in others.iter().enumerate() {
        let driver = Driver::new(file);
        for (other, (what_else, file)) in others.iter().enumerate() {
            assert_eq!(holds(&driver, file), index == other, "{what}, {what_else}");
        }
    }
}

#[test]
fn no_file_that_is_refused() {
    let file = first_plan();
    let driver = Driver::new(&file);
    let refused = [
        (12, vec![]),
        (2, file[..file.len() - 1].to_vec()),
        (2, [&file[..], &[0]].concat()),
        (4, [file.clone(), intervals(90, 110)].concat()),
        (3, [file.clone(), vec![8, 0, 0]].concat()),
        (15, plan_a(&[])),
        (12, file[..file.len() - 11].to_vec()),
        (13, plan_a(&[entry(1, 0, 2, &[3]), entry(1, 1, 1, &[3])])),
        (14, plan_a(&[entry(1, 0, 1, &[3, 4]), entry(2, 0, 1, &[4])])),
        (1, file.iter().copied().cycle().take(16_385).collect()),
    ];
    for (number, file) in refused {
        let verdict = Unit::new().load(&file, &mut Watchdog::new());
        assert_eq!(verdict.number(), number);
        assert!(!holds(&driver, &file), "{number}");
        assert!(!holds(&Driver::cleared(), &file), "{number}");
    }
}

#[test]
fn a_box_without_a_plan_holds_none() {
    let mut driver = Driver::new(&first_plan());
    driver.unit.clear(&mut driver.watchdog);
    assert!(!holds(&driver, &first_plan()));
    assert!(!holds(&driver, &[]));
    driver.unit.load(&first_plan(), &mut driver.watchdog);
    driver.unit.load(&plan_a(&[]), &mut driver.watchdog);
    assert!(!holds(&driver, &first_plan()));
    assert!(!holds(&driver, &plan_a(&[])));
}

#[test]
fn whatever_waits_or_is_live() {
    let file = first_plan();
    let other = plan_a(&[entry(1, 0, 1, &[3]), entry(2, 1, 1, &[4])]);
    let mut driver = Driver::new(&file);
    let check = |driver: &Driver| {
        assert!(holds(driver, &file));
        assert!(!holds(driver, &other));
    };
    driver.request(1, 3, 0, 100);
    check(&driver);
    driver.time_code(0, 1_000);
    check(&driver);
    driver.request(2, 4, 1, 256);
    driver.reading(5_000);
    check(&driver);
    driver.time_code(17, 1_000);
    check(&driver);
    driver.watchdog = Watchdog {
        last: 1,
        seen: 2,
        reported: 3,
        least: 4,
        greatest: 5,
    };
    check(&driver);
    driver.watchdog = Watchdog::new();
    check(&driver);
}
