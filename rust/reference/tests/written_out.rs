//! Writing out and reading back.

mod common;

use common::model::ModelPlan;
use common::{
    device, entry, first_plan, intervals, least_plan, link, path, plan_a, reply, row_plan,
    shuffled, split, times, usual_times, Driver, Random,
};
use reference::{Unit, WRITTEN_OUT};

#[test]
fn plan_a_written_out() {
    let mut expected = Vec::new();
    expected.extend([device(1, 0), device(2, 0), device(3, 0), device(4, 0)].concat());
    expected.extend([device(10, 1), device(11, 1)].concat());
    expected.extend([link(0, 1, 10), link(1, 2, 11), link(2, 3, 10)].concat());
    expected.extend([link(3, 4, 11), link(4, 10, 11)].concat());
    expected.extend([path(1, 3, &[0, 2]), path(1, 4, &[0, 4, 3])].concat());
    expected.extend([path(2, 3, &[1, 4, 2]), path(2, 4, &[1, 3])].concat());
    expected.extend([entry(1, 5, 2, &[3, 4]), entry(1, 60, 4, &[3])].concat());
    expected.extend([entry(2, 0, 1, &[4]), entry(2, 59, 1, &[3])].concat());
    expected.extend(intervals(90, 110));
    let file = plan_a(&[
        entry(2, 59, 1, &[3]),
        entry(1, 60, 4, &[3]),
        entry(2, 0, 1, &[4]),
        entry(1, 5, 2, &[4, 3]),
    ]);
    let driver = Driver::new(&file);
    assert_eq!(driver.written_out(), expected);
    assert_eq!(Driver::new(&expected).unit, driver.unit);
    assert_eq!(Driver::new(&expected).watchdog, driver.watchdog);
}

#[test]
fn times_come_last() {
    let times = times(0x0102, [0x0a_0b0c, 1, 0x02_0304, 0, 0x0f_4240]);
    let bytes = [
        6, 0, 22, 1, 2, 0, 10, 11, 12, 0, 0, 0, 1, 0, 2, 3, 4, 0, 0, 0, 0, 0, 15, 66, 64,
    ];
    assert_eq!(times, bytes);
    let mut plain = Driver::new(&first_plan());
    let timed = Driver::new(&[first_plan(), times.clone()].concat());
    assert_ne!(timed.unit, plain.unit);
    assert_eq!(timed.watchdog, plain.watchdog);
    let expected = [plain.written_out(), times].concat();
    assert_eq!(timed.written_out(), expected);
    assert_eq!(Driver::new(&expected).unit, timed.unit);
    // A plan without times after one that has them keeps none.
    let mut driver = timed.clone();
    driver.unit.load(&first_plan(), &mut driver.watchdog);
    assert_eq!(driver.unit, plain.unit);
    plain.unit.load(&expected, &mut plain.watchdog);
    assert_eq!(plain.unit, timed.unit);
}

#[test]
fn events_leave_the_plan() {
    for file in [first_plan(), [first_plan(), usual_times(39_450)].concat()] {
        let mut driver = Driver::new(&file);
        let before = driver.written_out();
        driver.request(1, 3, 0, 100);
        driver.time_code(0, 1000);
        driver.time_code(7, 1000);
        assert_eq!(driver.written_out(), before);
    }
}

/// Eight initiators, each at a router of its own with six targets; the routers stand in a ring.
/// 64 devices, 64 links, 128 paths, 512 entries.
fn full_plan() -> Vec<u8> {
    let mut file = Vec::new();
    for number in 0..64 {
        file.extend(device(number, u8::from((8..16).contains(&number))));
    }
    for row in 0..8 {
        file.extend(link(row, row, 8 + row));
        file.extend(link(8 + row, 8 + row, 8 + (row + 1) % 8));
    }
    for target in 16..64 {
        file.extend(link(target, target, 8 + (target - 16) / 6));
    }
    for row in 0..8 {
        for target in 16..64 {
            let hops = ((target - 16) / 6 + 8 - row) % 8;
            if hops == 0 || hops == 5 || hops == 6 && target % 6 < 4 {
                let mut links = vec![row];
                links.extend((0..hops).map(|hop| 8 + (row + hop) % 8));
                links.push(target);
                file.extend(path(row, target, &links));
            }
        }
    }
    for row in 0..8 {
        for slot in 0..64 {
            let targets: Vec<u8> = (0..6).map(|index| 16 + 6 * row + index).collect();
            file.extend(entry(row, slot, 1, &targets));
        }
    }
    file.extend(intervals(1, 2));
    file
}

/// The full plan with a reply to every command: round the ring the other way, or over the same links
/// where the target is at the initiator's own router.
fn with_replies(full_plan: &[u8]) -> Vec<u8> {
    let mut file = full_plan.to_vec();
    for path in split(full_plan).iter().filter(|field| field[0] == 3) {
        let (row, target) = (path[3], path[4]);
        let hops = (row + 8 - (target - 16) / 6) % 8;
        let mut links = vec![target];
        links.extend((0..hops).map(|hop| 8 + ((target - 16) / 6 + hop) % 8));
        links.push(row);
        file.extend(reply(row, target, &links));
    }
    file
}

#[test]
fn orders_make_no_difference() {
    let mut random = Random(7);
    let many = plan_a(&[
        entry(1, 0, 3, &[3]),
        entry(1, 60, 4, &[4, 3]),
        entry(2, 59, 1, &[3, 4]),
        entry(2, 0, 1, &[4]),
    ]);
    let timed = [full_plan(), usual_times(39_450)].concat();
    let row = row_plan(&[entry(0, 3, 2, &[7, 2, 8])], &usual_times(0));
    let (replied, both) = (with_replies(&full_plan()), with_replies(&timed));
    for file in [many, full_plan(), timed, row, replied, both] {
        let first = Driver::new(&file);
        let expected = ModelPlan::judge(&file).unwrap().written_out();
        assert_eq!(first.written_out(), expected);
        for _ in 0..50 {
            let driver = Driver::new(&shuffled(&file, &mut random));
            assert_eq!(driver.written_out(), expected);
            assert_eq!(driver.unit, first.unit);
        }
    }
}

#[test]
fn as_long_as_its_file() {
    assert_eq!(WRITTEN_OUT, 16_384);
    // No plan has more than 64 devices and links, 128 paths of 8 links and as many replies, 512 entries
    // of 16 targets, intervals and times.
    const { assert!(64 * 5 + 64 * 6 + 2 * 128 * 13 + 512 * 22 + 11 + 25 <= WRITTEN_OUT) };
    let timed = [full_plan(), usual_times(1)].concat();
    let replied = with_replies(&timed);
    let one_entry = plan_a(&[entry(2, 63, 16, &[4, 3])]);
    for file in [
        first_plan(),
        full_plan(),
        timed,
        replied,
        one_entry,
        least_plan(0, 1),
    ] {
        assert_eq!(Driver::new(&file).written_out().len(), file.len());
    }
}

#[test]
fn one_load_after_another_leaves_nothing() {
    let mut driver = Driver::new(&full_plan());
    driver.request(0, 16, 0, 1);
    driver.time_code(0, 5);
    let verdict = driver.unit.load(&first_plan(), &mut driver.watchdog);
    assert_eq!(verdict.number(), 0);
    let fresh = Driver::new(&first_plan());
    assert_eq!(driver.unit, fresh.unit);
    assert_eq!(driver.watchdog, fresh.watchdog);
    driver.unit.clear(&mut driver.watchdog);
    assert_eq!(driver.unit, Unit::new());
}
