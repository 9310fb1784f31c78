//! Records read off a buffer.

mod common;

use common::{plan_a, under};
use spwd::{records, Record, READ, RECORDS_ROOM, RECORD_SIZE};

const STARTED: Record = Record {
    kind: Record::STARTED,
    initiator: 1,
    target: 3,
    value: 63,
    transaction: 0x0102,
    length: 0x0304,
};

#[test]
fn a_record_and_its_bytes() {
    let bytes = [5, 1, 3, 63, 1, 2, 3, 4];
    assert_eq!(Record::from_bytes(bytes), STARTED);
    assert_eq!(STARTED.to_bytes(), bytes);
}

#[test]
fn as_many_as_there_are() {
    let buffer = STARTED.to_bytes().repeat(3);
    for (count, found) in [(0, 0), (1, 1), (3, 3), (4, 3), (255, 3)] {
        let all = records(&buffer, count);
        assert_eq!(all.len(), found);
        assert_eq!(all.collect::<Vec<_>>(), vec![STARTED; found]);
    }
    assert_eq!(records(&buffer[..RECORD_SIZE - 1], 1).next(), None);
    assert_eq!(records(&[], 255).next(), None);
}

#[test]
fn the_records_of_one_time_code_in_order() {
    let mut spwd = under(&plan_a(&[
        &[1, 0, 1, 3],
        &[2, 0, 1, 4],
        &[1, 1, 1, 3],
        &[2, 1, 1, 4],
    ]));
    let mut buffer = [0; RECORDS_ROOM];
    for _ in 0..2 {
        spwd.request(1, 3, READ, 1).unwrap();
        spwd.request(2, 4, READ, 2).unwrap();
    }
    assert_eq!(spwd.time_code(0, 0, &mut buffer), Ok(2));
    assert_eq!(spwd.time_code(1, 0, &mut buffer), Ok(5));
    let kinds: Vec<_> = records(&buffer, 5)
        .map(|record| {
            (
                record.kind,
                record.initiator,
                record.transaction,
                record.value,
            )
        })
        .collect();
    let expected = [
        (Record::EARLY, 0, 0, 1),
        (Record::TRANSACTION_LATE, 1, 0, 1),
        (Record::TRANSACTION_LATE, 2, 0, 1),
        (Record::STARTED, 1, 1, 1),
        (Record::STARTED, 2, 1, 1),
    ];
    assert_eq!(kinds, expected);
    assert_eq!(spwd.time_code(3, 100, &mut buffer), Ok(3));
    let kinds: Vec<_> = records(&buffer, 3).map(|record| record.kind).collect();
    assert_eq!(
        kinds,
        [
            Record::OUT_OF_SEQUENCE,
            Record::TRANSACTION_LATE,
            Record::TRANSACTION_LATE
        ]
    );
}
