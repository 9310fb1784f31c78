//! Every number that the box says has the words of the card.

mod common;

use common::{busy, first, smallest, REFUSED};
use spwd::words::{self, Row, RECORDS, REFUSALS, UNKNOWN, VERDICTS};
use spwd::{Record, Refusal, Spwd, Verdict};

#[test]
fn a_verdict() {
    let mut spwd = Spwd::new();
    let accepted = Verdict::from(spwd.load(&smallest()));
    assert_eq!(accepted.words(), VERDICTS[0].means);
    assert_eq!(accepted.to_do(), VERDICTS[0].to_do);
    let fault = spwd.load(&[3, 0]).unwrap_err();
    assert_eq!(fault.words(), "the file ends in the middle of a field");
    assert_eq!(fault.to_do(), words::verdict(Verdict::CUT_OFF).to_do);
    let refused = Verdict::Refused(fault);
    assert_eq!(
        (refused.words(), refused.to_do()),
        (fault.words(), fault.to_do())
    );
    let over = [&first()[..], &[5]].concat();
    assert_eq!(spwd.load(&over).unwrap_err().words(), fault.words());
}

#[test]
fn a_refusal() {
    let refused = Spwd::new().request(1, 3, 0, 0).unwrap_err();
    assert_eq!(refused.words(), "there is no plan in the box");
    assert_eq!(refused.to_do(), "load one");
    let late = busy().reply(1, 9, 0).unwrap_err();
    assert_eq!(late.words(), "another transaction is under way");
}

#[test]
fn a_record() {
    let started = Record::from_bytes([Record::STARTED, 1, 3, 0, 0, 0, 0, 1]);
    assert_eq!(
        started.words(),
        "started: initiator, target, number, length"
    );
    assert_eq!(started.to_do(), "nothing");
}

fn numbers(rows: &[Row]) -> Vec<u8> {
    rows.iter().map(|row| row.number).collect()
}

/// No number is left out, and none has the words of another.
#[test]
fn every_number() {
    assert_eq!(
        numbers(&VERDICTS),
        (0..=Verdict::NO_ENTRY).collect::<Vec<_>>()
    );
    assert_eq!(numbers(&REFUSALS), REFUSED.map(Refusal::number));
    assert_eq!(
        numbers(&RECORDS),
        (1..=Record::STILL_LIVE).collect::<Vec<_>>()
    );
    for refused in REFUSED {
        let row = words::refusal(refused.number());
        assert_eq!((refused.words(), refused.to_do()), (row.means, row.to_do));
    }
    let rows = [&VERDICTS[..], &REFUSALS, &RECORDS].concat();
    for (place, row) in rows.iter().enumerate() {
        assert!(!row.means.is_empty() && !row.to_do.is_empty());
        assert!(rows[..place].iter().all(|other| other.means != row.means));
    }
}

#[test]
fn a_number_that_is_not_on_the_card() {
    let unknown = |number| Row { number, ..UNKNOWN };
    assert_eq!(UNKNOWN.means, "not on the card");
    for number in [16, 19, 31, 32, 34, 255] {
        assert_eq!(words::verdict(number), unknown(number));
        assert_eq!(words::refusal(number), unknown(number));
        assert_eq!(words::record(number), unknown(number));
    }
    assert_eq!(words::verdict(20), unknown(20));
    assert_eq!(words::refusal(0), unknown(0));
    assert_eq!(words::record(0), unknown(0));
}
