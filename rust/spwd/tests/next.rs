//! When the next turn is: the count, its refusals, and what it says of a running box.

mod common;

use common::{busy, first, plan_a, smallest, times, under};
use spwd::{records, Plan, Record, Refusal, Spwd};
use spwd::{LENGTH_MOST, READ, RECORDS_ROOM, SLOTS, WRITE};

/// An entry as its field has it: initiator, slot, span, targets.
type Entry<'a> = &'a [u8];

#[test]
fn without_a_plan() {
    let mut cleared = busy();
    cleared.clear();
    let mut refused = busy();
    assert!(refused.load(&first()[..114]).is_err());
    for spwd in [Spwd::new(), cleared, refused] {
        for (initiator, length, slot) in [(1, 1, 0), (9, 1, 0), (1, 5_000, 0), (1, 1, 64)] {
            let answer = spwd.next(initiator, 3, length, slot);
            assert_eq!(answer, Err(Refusal::NO_PLAN));
        }
        assert!(spwd.is_blank());
        assert_eq!(spwd, Spwd::new());
    }
}

/// Every set of faults gets the smallest number of them; a slot over 63 comes last.
#[test]
fn refusals_and_their_order() {
    let spwd = under(&first());
    for faults in 0..16 {
        let has = |fault: u8| faults & 1 << fault != 0;
        let initiator = if has(0) { 3 } else { 1 };
        let length = if has(1) { LENGTH_MOST + 1 } else { 256 };
        let target = if has(2) { 4 } else { 3 };
        let slot = if has(3) { SLOTS } else { 0 };
        let right = [
            Refusal::NO_INITIATOR,
            Refusal::LENGTH_OVER_MOST,
            Refusal::NOT_PERMITTED,
            Refusal::SLOT_OVER_MOST,
        ];
        let right = (0..4)
            .find(|&fault| has(fault))
            .map(|fault| right[fault as usize]);
        let answer = spwd.next(initiator, target, length, slot);
        assert_eq!(answer, right.map_or(Ok(64), Err), "{faults:04b}");
    }
}

#[test]
fn each_refusal() {
    let spwd = under(&first());
    for initiator in [0, 3, 10, 63, 64, 255] {
        let answer = spwd.next(initiator, 3, 0, 0);
        assert_eq!(answer, Err(Refusal::NO_INITIATOR), "{initiator}");
    }
    for length in [LENGTH_MOST + 1, u16::MAX] {
        let answer = spwd.next(1, 3, length, 0);
        assert_eq!(answer, Err(Refusal::LENGTH_OVER_MOST), "{length}");
    }
    // A path without an entry, no path, no node, no device.
    for target in [4, 1, 2, 10, 5, 63, 64, 67, 128, 255] {
        let answer = spwd.next(1, target, 0, 0);
        assert_eq!(answer, Err(Refusal::NOT_PERMITTED), "{target}");
    }
    for length in [257, LENGTH_MOST] {
        let answer = spwd.next(1, 3, length, 0);
        assert_eq!(answer, Err(Refusal::NOT_PERMITTED), "{length}");
    }
    for slot in [SLOTS, 65, 127, 128, 255] {
        let answer = spwd.next(1, 3, 0, slot);
        assert_eq!(answer, Err(Refusal::SLOT_OVER_MOST), "{slot}");
    }
}

/// The counts from these slots, of 1 to 3 with no data.
#[track_caller]
fn counts(entries: &[Entry], right: &[(u8, u8)]) {
    let spwd = under(&plan_a(entries));
    for &(slot, count) in right {
        assert_eq!(spwd.next(1, 3, 0, slot), Ok(count), "from slot {slot}");
    }
}

/// 1 is the slot after the given one, 64 that slot again, and after 63 comes 0.
#[test]
fn counted_from_a_slot() {
    let five = [
        (4, 1),
        (5, 64),
        (6, 63),
        (3, 2),
        (0, 5),
        (63, 6),
        (62, 7),
        (37, 32),
    ];
    counts(&[&[1, 5, 1, 3]], &five);
    counts(&[&[1, 0, 1, 3]], &[(63, 1), (0, 64), (1, 63), (62, 2)]);
    counts(&[&[1, 63, 1, 3]], &[(62, 1), (63, 64), (0, 63), (61, 2)]);
}

/// The nearest of several, whichever comes first in the file.
#[test]
fn the_nearest() {
    let three: [Entry; 3] = [&[1, 7, 1, 3], &[1, 40, 2, 3], &[1, 60, 1, 3, 4]];
    let right = [
        (6, 1),
        (7, 33),
        (39, 1),
        (40, 20),
        (41, 19),
        (59, 1),
        (60, 11),
        (63, 8),
    ];
    counts(&three, &right);
    counts(&[three[2], three[0], three[1]], &right);
    let all: Vec<_> = (0..SLOTS).map(|slot| [1, slot, 1, 3]).collect();
    let all: Vec<Entry> = all.iter().map(|entry| &entry[..]).collect();
    let next: Vec<_> = (0..SLOTS).map(|slot| (slot, 1)).collect();
    counts(&all, &next);
}

/// A slot that an entry covers after its own is no turn.
#[test]
fn covered_is_no_turn() {
    let over_63 = [(62, 1), (63, 64), (0, 63), (1, 62), (2, 61)];
    counts(&[&[1, 63, 3, 3]], &over_63);
    counts(
        &[&[1, 0, 16, 3], &[1, 16, 16, 4]],
        &[(0, 64), (1, 63), (15, 49), (63, 1)],
    );
}

/// Neither another initiator's entry is a turn, nor one for another target.
#[test]
fn of_this_pair() {
    let spwd = under(&plan_a(&[
        &[1, 2, 1, 3],
        &[1, 8, 1, 4],
        &[2, 4, 1, 3],
        &[2, 6, 1, 3, 4],
    ]));
    let from_0 = |initiator, target| spwd.next(initiator, target, 256, 0);
    assert_eq!((from_0(1, 3), from_0(1, 4)), (Ok(2), Ok(8)));
    assert_eq!((from_0(2, 3), from_0(2, 4)), (Ok(4), Ok(6)));
}

/// 256 bytes for each slot of the span: from slot 63 the entries of span 1, 2 and 16 are 1, 11 and 21 slots on.
#[test]
fn lengths() {
    let spwd = under(&plan_a(&[
        &[1, 0, 1, 3],
        &[1, 10, 2, 3],
        &[1, 20, 16, 3, 4],
    ]));
    for (length, count) in [
        (0, 1),
        (1, 1),
        (256, 1),
        (257, 11),
        (512, 11),
        (513, 21),
        (4_095, 21),
        (4_096, 21),
    ] {
        assert_eq!(spwd.next(1, 3, length, 63), Ok(count), "{length}");
        assert_eq!(spwd.next(1, 4, length, 63), Ok(21), "{length}");
    }
}

/// Plan A at 200 Mbit/s with 5,000 for each latency and so long a slot; one slot and two for both targets.
fn timed(slot_length: u32) -> Spwd {
    let plan = plan_a(&[&[1, 0, 1, 3, 4], &[1, 10, 2, 3, 4]]);
    let times = times(200, [5_000, 5_000, 5_000, 5_000, slot_length]);
    under(&[plan, times].concat())
}

/// 1 to 3 goes over one router: 600 + 50 × (1 + 16 + 4) + 600 + 50 × 9 = 2,700, with the latencies 22,700. 1 to 4 goes over two: 24,000.
/// A byte takes 50 ns, and the data has one more.
#[test]
fn lengths_by_the_times() {
    for (slot_length, rows) in [
        (
            35_550,
            [(3, [256, 257, 967, 968]), (4, [230, 231, 941, 942])],
        ),
        (
            35_549,
            [(3, [255, 256, 966, 967]), (4, [229, 230, 940, 941])],
        ),
    ] {
        let spwd = timed(slot_length);
        for (target, [one, over_one, two, over_two]) in rows {
            let from_63 = |length| spwd.next(1, target, length, 63);
            assert_eq!((from_63(0), from_63(one)), (Ok(1), Ok(1)));
            assert_eq!((from_63(over_one), from_63(two)), (Ok(11), Ok(11)));
            assert_eq!(from_63(over_two), Err(Refusal::NOT_PERMITTED));
        }
    }
    // More than 256 bytes for each slot, up to the most of all.
    assert_eq!(timed(1_000_000).next(1, 3, LENGTH_MOST, 63), Ok(1));
}

/// An entry that never permits its target is no turn; and if there is no other, the target is not permitted.
#[test]
fn never_by_the_times() {
    let from_63 = |slot_length, target| timed(slot_length).next(1, target, 0, 63);
    assert_eq!((from_63(24_050, 3), from_63(24_050, 4)), (Ok(1), Ok(1)));
    assert_eq!((from_63(24_049, 3), from_63(24_049, 4)), (Ok(1), Ok(11)));
    assert_eq!((from_63(22_749, 3), from_63(22_749, 4)), (Ok(11), Ok(11)));
    let never = Err(Refusal::NOT_PERMITTED);
    assert_eq!((from_63(11_999, 3), from_63(11_999, 4)), (Ok(11), never));
    assert_eq!((from_63(0, 3), from_63(0, 4)), (never, never));
}

/// The count got by reading all entries of a plan without times.
fn by_the_entries(
    entries: &[Entry],
    initiator: u8,
    target: u8,
    length: u16,
    slot: u8,
) -> Option<u8> {
    let permits = |entry: Entry, at: u8| {
        let (head, targets) = entry.split_at(3);
        head[..2] == [initiator, at]
            && targets.contains(&target)
            && length <= 256 * u16::from(head[2])
    };
    let turn = |count: &u8| {
        let at = (slot + count) % SLOTS;
        entries.iter().any(|entry| permits(entry, at))
    };
    (1..=SLOTS).find(turn)
}

const SEVERAL: [Entry; 8] = [
    &[1, 0, 1, 3],
    &[1, 3, 4, 3, 4],
    &[1, 31, 2, 3],
    &[1, 62, 2, 4],
    &[2, 8, 1, 4],
    &[2, 9, 16, 3, 4],
    &[2, 40, 3, 4],
    &[2, 48, 1, 3],
];

#[test]
fn as_by_reading_all_entries() {
    let spwd = under(&plan_a(&SEVERAL));
    for (initiator, target) in [(1, 3), (1, 4), (2, 3), (2, 4)] {
        for length in [0, 256, 257, 512, 513, 768, 769, 1_024, 1_025, 4_096] {
            for slot in 0..SLOTS {
                let right = by_the_entries(&SEVERAL, initiator, target, length, slot);
                let answer = spwd.next(initiator, target, length, slot);
                assert_eq!(answer, right.ok_or(Refusal::NOT_PERMITTED));
            }
        }
    }
}

/// The counts of some requests from every slot, and from one that there is not.
fn every_count(spwd: &Spwd) -> Vec<Result<u8, Refusal>> {
    let mut counts = Vec::new();
    for (initiator, target) in [(1, 3), (1, 4), (2, 3), (2, 4), (1, 2)] {
        for length in [0, 300] {
            counts.extend((0..=SLOTS).map(|slot| spwd.next(initiator, target, length, slot)));
        }
    }
    counts
}

#[test]
fn the_box_is_left_as_it_was() {
    let spwd = busy();
    every_count(&spwd);
    assert_eq!(spwd.next(9, 3, 1, 0), Err(Refusal::NO_INITIATOR));
    assert_eq!(spwd.next(1, 3, 5_000, 0), Err(Refusal::LENGTH_OVER_MOST));
    assert_eq!(spwd, busy());
}

/// A load has the turns of its own plan alone, whatever the box held; so has a load after a clear and after a refused one.
#[test]
fn brought_up_by_every_load() {
    let (several, other) = (plan_a(&SEVERAL), plan_a(&[&[1, 9, 2, 4], &[2, 20, 5, 3]]));
    let mut spwd = under(&several);
    for file in [&other, &several, &smallest(), &other] {
        spwd.load(file).unwrap();
        assert_eq!(spwd, under(file));
        assert_eq!(every_count(&spwd), every_count(&under(file)));
    }
    spwd.clear();
    assert_eq!(spwd, Spwd::new());
    assert!(every_count(&spwd)
        .iter()
        .all(|count| *count == Err(Refusal::NO_PLAN)));
    spwd.load(&several).unwrap();
    assert!(spwd.load(&plan_a(&[&[1, 0, 1, 3], &[1, 0, 1, 4]])).is_err());
    assert_eq!(spwd, Spwd::new());
    spwd.load(&other).unwrap();
    assert_eq!(every_count(&spwd), every_count(&under(&other)));
}

/// What waits, what is live and the time-codes have no say in it.
#[test]
fn only_the_plan_is_asked() {
    let spwd = busy();
    assert_eq!(every_count(&spwd), every_count(&under(&first())));
    assert_eq!(
        (spwd.next(1, 3, 1, 0), spwd.next(2, 4, 1, 60)),
        (Ok(64), Ok(4))
    );
}

#[test]
fn of_a_plan_beside_the_box() {
    let mut other = Plan::new();
    assert_eq!(other.next(1, 3, 0, 0), Err(Refusal::NO_PLAN));
    assert!(!Spwd::new().holds(&first(), &mut other));
    assert_eq!(other.next(1, 3, 0, 0), Ok(64));
    assert_eq!(other.next(1, 3, 0, 64), Err(Refusal::SLOT_OVER_MOST));
}

/// The starts of a time-code: initiator and number.
fn starts(spwd: &mut Spwd, value: u8) -> Vec<(u8, u16)> {
    let mut buffer = [0; RECORDS_ROOM];
    let count = spwd.time_code(value, 0, &mut buffer).unwrap();
    let started = records(&buffer, count).filter(|record| record.kind == Record::STARTED);
    started
        .map(|record| (record.initiator, record.transaction))
        .collect()
}

/// A box under several entries, with this as its last time-code.
fn at(slot: u8) -> Spwd {
    let mut spwd = under(&plan_a(&SEVERAL));
    assert_eq!(starts(&mut spwd, slot), []);
    spwd
}

/// Which of the time-codes to come starts a transaction, all in sequence.
fn started_at(spwd: &mut Spwd, slot: u8, transaction: (u8, u16)) -> Option<u8> {
    (1..=SLOTS).find(|count| starts(spwd, (slot + count) % SLOTS).contains(&transaction))
}

/// A request that is taken into an empty line starts at the time-code of its count, whatever joins the line behind it and whatever the
/// other initiator does.
#[test]
fn a_request_alone_in_its_line() {
    for slot in 0..SLOTS {
        for (initiator, target, length) in [
            (1, 3, 0),
            (1, 4, 512),
            (1, 3, 1_024),
            (2, 3, 257),
            (2, 4, 4_096),
        ] {
            let mut spwd = at(slot);
            let other = 3 - initiator;
            spwd.request(other, 3, WRITE, 100).unwrap();
            let count = spwd.next(initiator, target, length, slot).unwrap();
            assert_eq!(spwd.request(initiator, target, READ, length), Ok(0));
            for _ in 0..7 {
                spwd.request(initiator, 3, WRITE, 0).unwrap();
                spwd.request(other, 4, READ, 0).unwrap();
            }
            let started = started_at(&mut spwd, slot, (initiator, 0));
            assert_eq!(started, Some(count), "{initiator} {target} {length} {slot}");
        }
    }
}

/// The same while an earlier transaction is live: at the next entry it is over.
#[test]
fn a_request_behind_a_live_one() {
    let mut spwd = at(2);
    assert_eq!(spwd.request(1, 3, READ, 1_024), Ok(0));
    assert_eq!(starts(&mut spwd, 3), [(1, 0)]);
    assert_eq!(spwd.next(1, 3, 0, 3), Ok(28));
    assert_eq!(spwd.request(1, 3, READ, 0), Ok(1));
    assert_eq!(started_at(&mut spwd, 3, (1, 1)), Some(28));
}

/// The last time-code counts if it was out of sequence, too; those that are refused do not.
#[test]
fn after_a_time_code_out_of_sequence() {
    let mut spwd = at(2);
    assert_eq!(starts(&mut spwd, 28), []);
    assert_eq!(spwd.next(1, 3, 512, 28), Ok(3));
    assert_eq!(spwd.request(1, 3, READ, 512), Ok(0));
    assert_eq!(
        spwd.time_code(64, 0, &mut [0; RECORDS_ROOM]),
        Err(Refusal::UPPER_BITS)
    );
    assert_eq!(spwd.time_code(29, 0, &mut []), Err(Refusal::SMALL_BUFFER));
    assert_eq!(started_at(&mut spwd, 28, (1, 0)), Some(3));
}

/// What is not said: of a request behind another in its line; where a time-code is out of sequence; before the first one, which may have
/// any value.
#[test]
fn what_it_does_not_say() {
    let mut spwd = at(62);
    spwd.request(1, 3, READ, 0).unwrap();
    spwd.request(1, 3, READ, 0).unwrap();
    assert_eq!(spwd.next(1, 3, 0, 62), Ok(2));
    assert_eq!(started_at(&mut spwd, 62, (1, 1)), Some(5));

    let mut spwd = at(62);
    spwd.request(1, 3, READ, 0).unwrap();
    assert_eq!(starts(&mut spwd, 0), []);
    assert_eq!(started_at(&mut spwd, 0, (1, 0)), Some(3));

    let mut spwd = under(&plan_a(&SEVERAL));
    spwd.request(1, 3, READ, 0).unwrap();
    assert_eq!(spwd.next(1, 3, 0, 0), Ok(3));
    assert_eq!(starts(&mut spwd, 31), [(1, 0)]);
}
