//! Every refusal, and that it changes nothing.

mod common;

use common::{first, under, REFUSED};
use spwd::{Ended, Event, Refusal, Spwd, Watchdog};
use spwd::{ERROR, LENGTH_MOST, READ, RECORDS_ROOM, WAITING_MOST, WRITE};

fn request(initiator: u8, target: u8, kind: u8, length: u16) -> Event {
    Event::Request {
        initiator,
        target,
        kind,
        length,
    }
}

fn reply(initiator: u8, transaction: u16) -> Event {
    Event::Reply {
        initiator,
        transaction,
        status: 0,
    }
}

const TIME_CODE: Event = Event::TimeCode {
    byte: 5,
    clock: 1_000,
};

#[track_caller]
fn refuses(spwd: &mut Spwd, event: Event, room: usize, refusal: Refusal) {
    let before = spwd.clone();
    let mut buffer = vec![0xa5; room];
    assert_eq!(spwd.step(event, &mut buffer), Err(refusal));
    assert_eq!(*spwd, before);
    assert_eq!(buffer, vec![0xa5; room]);
}

#[test]
fn without_a_plan() {
    let events = [
        TIME_CODE,
        request(1, 3, READ, 1),
        reply(1, 0),
        Event::Reading { clock: 0 },
    ];
    for event in events {
        refuses(&mut Spwd::new(), event, RECORDS_ROOM, Refusal::NO_PLAN);
        refuses(&mut Spwd::new(), event, 0, Refusal::NO_PLAN);
    }
    let mut spwd = Spwd::new();
    let mut out = [0xa5; 200];
    assert_eq!(spwd.write_out(&mut out), Err(Refusal::NO_PLAN));
    assert_eq!(spwd.write_out(&mut []), Err(Refusal::NO_PLAN));
    assert_eq!(out, [0xa5; 200]);
    assert_eq!(spwd.time_code(64, 0, &mut []), Err(Refusal::NO_PLAN));
    assert_eq!(spwd.reading(0), Err(Refusal::NO_PLAN));
    assert!(spwd.is_blank());
}

#[test]
fn time_codes() {
    let mut spwd = under(&first());
    let wide = Event::TimeCode { byte: 64, clock: 0 };
    refuses(&mut spwd, wide, RECORDS_ROOM, Refusal::UPPER_BITS);
    refuses(&mut spwd, wide, 0, Refusal::UPPER_BITS);
    refuses(
        &mut spwd,
        TIME_CODE,
        RECORDS_ROOM - 1,
        Refusal::SMALL_BUFFER,
    );
    refuses(&mut spwd, TIME_CODE, 0, Refusal::SMALL_BUFFER);
}

#[test]
fn requests() {
    let mut spwd = under(&first());
    refuses(&mut spwd, request(3, 1, 2, 5_000), 0, Refusal::NO_INITIATOR);
    refuses(&mut spwd, request(1, 9, 2, 5_000), 0, Refusal::UNKNOWN_KIND);
    let long = request(1, 9, WRITE, LENGTH_MOST + 1);
    refuses(&mut spwd, long, 0, Refusal::LENGTH_OVER_MOST);
    refuses(&mut spwd, request(1, 4, READ, 0), 0, Refusal::NOT_PERMITTED);
    for transaction in 0..WAITING_MOST as u16 {
        assert_eq!(spwd.request(1, 3, READ, 0), Ok(transaction));
    }
    refuses(&mut spwd, request(1, 3, READ, 0), 0, Refusal::LINE_FULL);
    assert_eq!(spwd.request(2, 4, WRITE, 256), Ok(0));
}

#[test]
fn replies() {
    let mut spwd = under(&first());
    refuses(&mut spwd, reply(3, 0), 0, Refusal::NO_INITIATOR);
    refuses(&mut spwd, reply(1, 0), 0, Refusal::NOTHING_LIVE);
    assert_eq!(spwd.request(1, 3, READ, 77), Ok(0));
    refuses(&mut spwd, reply(1, 0), 0, Refusal::NOTHING_LIVE);
    assert_eq!(spwd.time_code(0, 0, &mut [0; RECORDS_ROOM]), Ok(1));
    refuses(&mut spwd, reply(1, 1), 0, Refusal::OTHER_TRANSACTION);
    let ended = Ended {
        target: 3,
        length: 77,
        status: 9,
        status_class: ERROR,
    };
    assert_eq!(spwd.reply(1, 0, 9), Ok(ended));
    refuses(&mut spwd, reply(1, 0), 0, Refusal::NOTHING_LIVE);
}

#[test]
fn readings() {
    let mut spwd = under(&first());
    assert_eq!(spwd.reading(5_000), Ok(false));
    assert_eq!(spwd.time_code(7, 1_000, &mut [0; RECORDS_ROOM]), Ok(0));
    assert_eq!(spwd.reading(1_110), Ok(false));
    assert_eq!(spwd.watchdog().reported, 0);
    assert_eq!(spwd.reading(1_111), Ok(true));
    assert_eq!(spwd.watchdog().reported, 1);
    assert_eq!(spwd.reading(1_112), Ok(false));
    assert_eq!(spwd.time_code(8, 1_113, &mut [0; RECORDS_ROOM]), Ok(0));
}

#[test]
fn the_five_as_lent() {
    let mut spwd = under(&first());
    let loaded = Watchdog {
        least: 90,
        greatest: 110,
        ..Watchdog::default()
    };
    assert_eq!(spwd.watchdog(), loaded);
    let lent = Watchdog::from([10, 7, 0, 3, 5]);
    spwd.set_watchdog(lent);
    assert_eq!(spwd.watchdog(), lent);
    assert_eq!(spwd.reading(15), Ok(false));
    assert_eq!(spwd.reading(16), Ok(true));
    assert_eq!(<[u32; 5]>::from(spwd.watchdog()), [10, 7, 1, 3, 5]);
}

#[test]
fn refusals_as_text() {
    assert_eq!(Refusal::NOT_PERMITTED.to_string(), "refused 25");
    let numbers = REFUSED.map(Refusal::number);
    let right = (20..=30).chain([33]);
    assert_eq!(numbers.to_vec(), right.collect::<Vec<u8>>());
}
