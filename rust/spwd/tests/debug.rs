//! A box and a plan in one short line, where a program is looked at.

mod common;

use common::{busy, first, under};
use spwd::{Plan, Spwd};

#[test]
fn a_box() {
    let none = "watchdog: Watchdog { last: 0, seen: 0, reported: 0, least: 0, greatest: 0 }, .. }";
    let new = format!("{:?}", Spwd::new());
    assert_eq!(new, format!("Spwd {{ plan: false, blank: true, {none}"));
    let loaded = format!("{:?}", under(&first()));
    let five =
        "watchdog: Watchdog { last: 0, seen: 0, reported: 0, least: 90, greatest: 110 }, .. }";
    assert_eq!(loaded, format!("Spwd {{ plan: true, blank: false, {five}"));
    let five =
        "watchdog: Watchdog { last: 1000, seen: 1, reported: 1, least: 90, greatest: 110 }, .. }";
    assert_eq!(
        format!("{:?}", busy()),
        format!("Spwd {{ plan: true, blank: false, {five}")
    );
}

/// A box without a plan is not blank where one of the five is lent.
#[test]
fn the_five_alone() {
    let mut spwd = Spwd::new();
    spwd.set_watchdog([u32::MAX; 5].into());
    let shown = format!("{spwd:?}");
    assert!(shown.starts_with("Spwd { plan: false, blank: false, watchdog: "));
    assert!(shown.len() < 200, "{shown}");
}

#[test]
fn a_plan() {
    assert_eq!(format!("{:?}", Plan::new()), "Plan { given: false, .. }");
    let spwd = under(&first());
    assert_eq!(format!("{:?}", spwd.plan()), "Plan { given: true, .. }");
    let mut other = Plan::new();
    assert!(spwd.holds(&first(), &mut other));
    assert_eq!(format!("{other:?}"), "Plan { given: true, .. }");
}
