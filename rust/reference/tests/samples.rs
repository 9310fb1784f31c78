//! The paper's samples on either side.

mod common;

use common::{entry, first_plan, intervals, line, plan_a, row_plan, usual_times, verdict, Driver};
use reference::{Answer, Refusal, Unit, Watchdog};

#[test]
fn printed_verdicts() {
    let mut twice = intervals(90, 110);
    twice.extend(intervals(90, 110));
    let samples: [(Vec<u8>, &str); 10] = [
        (first_plan(), "ACCEPTED 6 5 4 2"),
        (
            plan_a(&[entry(1, 0, 1, &[3, 4]), entry(2, 0, 1, &[4])]),
            "REFUSED 14 0 1 2 3",
        ),
        (
            plan_a(&[entry(1, 63, 2, &[3]), entry(2, 0, 1, &[3])]),
            "REFUSED 14 0 1 2 2",
        ),
        (
            plan_a(&[entry(1, 63, 1, &[3]), entry(2, 0, 1, &[3])]),
            "ACCEPTED 6 5 4 2",
        ),
        (
            plan_a(&[entry(1, 63, 2, &[3]), entry(1, 0, 1, &[3])]),
            "REFUSED 13 1 63",
        ),
        (vec![], "REFUSED 12 0"),
        (vec![5, 0, 8, 0, 0, 0, 0x5a, 0, 0, 0, 0x6e], "REFUSED 15 11"),
        (twice, "REFUSED 4 11"),
        (vec![6, 0, 0], "REFUSED 5 0"),
        (plan_a(&[]), "REFUSED 15 101"),
    ];
    for (file, expected) in samples {
        assert_eq!(verdict(&file), expected);
    }
}

#[test]
fn whole_output_ends_with_a_newline() {
    let verdict = Unit::new().load(&first_plan(), &mut Watchdog::new());
    assert_eq!(line(&verdict), "ACCEPTED 6 5 4 2\n");
}

#[test]
fn lengths_on_the_first_plan() {
    let mut driver = Driver::new(&first_plan());
    let refused = Answer::Refused;
    assert_eq!(driver.request(1, 3, 0, 256), Answer::Taken { number: 0 });
    assert_eq!(driver.request(1, 3, 0, 257), refused(Refusal::NotPermitted));
    assert_eq!(
        driver.request(1, 3, 0, 4096),
        refused(Refusal::NotPermitted)
    );
    assert_eq!(driver.request(1, 3, 0, 4097), refused(Refusal::Length));
}

/// The greatest length taken over four routers in one slot of this length, and then one more refused.
fn most_over_four_routers(slot_length: u32) -> Option<u16> {
    let file = row_plan(&[entry(0, 0, 1, &[4])], &usual_times(slot_length));
    let taken = |length: &u16| Driver::new(&file).request(0, 4, 0, *length).number() == 0;
    let most = (0..=4_096).take_while(taken).last();
    let more = most.map_or(0, |most| most + 1);
    let answer = Driver::new(&file).request(0, 4, 0, more);
    assert_eq!(answer, Answer::Refused(Refusal::NotPermitted));
    most
}

#[test]
fn lengths_by_the_time_sheet() {
    assert_eq!(most_over_four_routers(39_450), Some(256));
    assert_eq!(most_over_four_routers(39_449), Some(255));
    assert_eq!(most_over_four_routers(26_650), Some(0));
    assert_eq!(most_over_four_routers(26_649), None);
}

#[test]
fn a_start_and_a_late_end() {
    let mut driver = Driver::new(&first_plan());
    assert_eq!(driver.request(1, 3, 0, 100), Answer::Taken { number: 0 });
    assert_eq!(driver.time_code(0, 1000), [[5, 1, 3, 0, 0, 0, 0, 0x64]]);
    assert_eq!(driver.time_code(1, 1100), [[4, 1, 3, 1, 0, 0, 0, 0x64]]);
    assert_eq!(driver.reply(1, 0, 0), Answer::Refused(Refusal::NothingLive));
}

#[test]
fn elapsed_runs_round() {
    let start = 4_294_967_290;
    let second = |clock: u32| {
        let mut driver = Driver::new(&first_plan());
        assert_eq!(driver.time_code(0, start), [[0; 8]; 0]);
        driver.time_code(1, clock)
    };
    assert_eq!(second(94), [[0; 8]; 0]);
    let after = |elapsed: u32| second(start.wrapping_add(elapsed));
    assert_eq!(after(89), [[1, 0, 0, 1, 0, 0, 0, 0]]);
    assert_eq!(after(90), [[0; 8]; 0]);
    assert_eq!(after(110), [[0; 8]; 0]);
    assert_eq!(after(111), [[2, 0, 0, 1, 0, 0, 0, 0]]);
}

#[test]
fn a_clock_stepped_back_by_one_reads_as_late() {
    let mut driver = Driver::new(&first_plan());
    driver.time_code(0, 1000);
    assert!(driver.reading(999));
    assert!(!driver.reading(999));
    assert_eq!(driver.time_code(1, 999), [[0; 8]; 0]);
    assert_eq!(driver.time_code(2, 998), [[2, 0, 0, 2, 0, 0, 0, 0]]);
}
