//! Clear, load, writing out, and what the lamp asks.

mod common;

use common::{busy, fields, first, plan_a, smallest, under};
use spwd::{Plan, Refusal, Spwd, Watchdog, READ, WRITTEN_MOST};

#[test]
fn a_new_box_is_that_of_a_clear() {
    let mut spwd = Spwd::new();
    assert!(spwd.is_blank());
    spwd.clear();
    assert_eq!(spwd, Spwd::new());
    assert_eq!(Spwd::default(), Spwd::new());
}

#[test]
fn a_clear_leaves_nothing() {
    let mut spwd = busy();
    assert!(!spwd.is_blank());
    spwd.clear();
    assert_eq!(spwd, Spwd::new());
    assert!(spwd.is_blank());
}

#[test]
fn the_lamp_reads_the_five_too() {
    for place in 0..5 {
        let mut five = [0; 5];
        five[place] = 1;
        let mut spwd = Spwd::new();
        spwd.set_watchdog(five.into());
        assert!(!spwd.is_blank());
        spwd.set_watchdog(Watchdog::default());
        assert!(spwd.is_blank());
    }
}

#[test]
fn a_refused_load_leaves_a_clear() {
    for file in [&[][..], &[6, 0, 0], &first()[..114], &[0; 20_000]] {
        let mut spwd = busy();
        assert!(spwd.load(file).is_err());
        assert_eq!(spwd, Spwd::new());
    }
}

#[test]
fn an_accepted_load_replaces_everything() {
    let mut spwd = busy();
    assert!(spwd.load(&smallest()).is_ok());
    assert_eq!(spwd, under(&smallest()));
    assert!(spwd.load(&first()).is_ok());
    assert_eq!(spwd, under(&first()));
    assert_eq!(spwd.request(1, 3, READ, 0), Ok(0));
}

#[test]
fn a_plan_written_out() {
    let file = first();
    let spwd = busy();
    for room in 0..file.len() {
        let mut out = vec![0xa5; room];
        assert_eq!(spwd.write_out(&mut out), Err(Refusal::SMALL_ROOM));
        assert_eq!(out, vec![0xa5; room]);
    }
    for room in [file.len(), file.len() + 1, WRITTEN_MOST] {
        let mut out = vec![0xa5; room];
        assert_eq!(spwd.write_out(&mut out), Ok(file.len()));
        assert_eq!(out[..file.len()], file);
        assert!(out[file.len()..].iter().all(|&byte| byte == 0xa5));
    }
}

#[test]
fn a_plan_in_another_order() {
    let entries: [&[u8]; 3] = [&[1, 0, 1, 4, 3], &[2, 9, 2, 4], &[1, 5, 3, 3]];
    let mut fields = fields(&entries);
    fields.reverse();
    fields.sort_by_key(|field| field[0]);
    let file = fields.concat();
    let sorted = plan_a(&[&[1, 0, 1, 3, 4], &[1, 5, 3, 3], &[2, 9, 2, 4]]);
    assert_ne!(file, sorted);
    assert_eq!(under(&file), under(&sorted));
    let mut out = vec![0; file.len()];
    assert_eq!(under(&file).write_out(&mut out), Ok(file.len()));
    assert_eq!(out, sorted);
    assert!(under(&sorted).holds(&file, &mut Plan::new()));
}

#[test]
fn the_plan_of_a_file() {
    let mut other = under(&smallest()).plan().clone();
    let spwd = busy();
    assert!(spwd.holds(&first(), &mut other));
    assert_eq!(other, *spwd.plan());
    let longer = plan_a(&[&[1, 0, 2, 3], &[2, 0, 1, 4]]);
    assert!(!spwd.holds(&longer, &mut other));
    assert_eq!(other, *under(&longer).plan());
    assert!(!spwd.holds(&[], &mut other));
    assert_eq!(other, Plan::new());
    assert!(!Spwd::new().holds(&[], &mut other));
    assert!(!Spwd::new().holds(&first(), &mut other));
    assert_eq!(other, *spwd.plan());
    assert_eq!(spwd, busy());
}

#[test]
fn a_plan_beside_the_box_is_written_out_too() {
    let mut other = Plan::default();
    let mut out = [0; WRITTEN_MOST];
    assert_eq!(other.write_out(&mut out), Err(Refusal::NO_PLAN));
    assert!(!Spwd::new().holds(&first(), &mut other));
    assert_eq!(other.write_out(&mut out), Ok(first().len()));
    assert_eq!(out[..first().len()], first());
}
