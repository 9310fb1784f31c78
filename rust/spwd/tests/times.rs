//! Plans that carry times: what field 06 may say, and which lengths it permits.

mod common;

use common::{field, first, plan_a, smallest, times, under, INTERVALS};
use spwd::{records, Plan, Record, Refusal, Spwd, Verdict};
use spwd::{LATENCY_MOST, LENGTH_MOST, RATE_LEAST, RATE_MOST, READ, RECORDS_ROOM};
use spwd::{SLOT_LENGTH_MOST, WRITE, WRITTEN_MOST};

const FIVE: u32 = 5_000;

/// Field 06 with 200 Mbit/s, 5,000 for each latency and this slot length.
fn slots_of(slot_length: u32) -> Vec<u8> {
    times(200, [FIVE, FIVE, FIVE, FIVE, slot_length])
}

/// From node 1 over four routers to node 3 and over one of them to node 2, up to its entries.
fn line() -> Vec<u8> {
    let mut fields = Vec::new();
    for (device, kind) in [(1, 0), (2, 0), (3, 0), (10, 1), (11, 1), (12, 1), (13, 1)] {
        fields.push(field(1, &[device, kind]));
    }
    for (link, ends) in [[1, 10], [10, 11], [11, 12], [12, 13], [3, 13], [2, 10]]
        .iter()
        .enumerate()
    {
        fields.push(field(2, &[&[link as u8], &ends[..]].concat()));
    }
    fields.push(field(3, &[1, 2, 0, 5]));
    fields.push(field(3, &[1, 3, 0, 1, 2, 3, 4]));
    fields.concat()
}

/// That network with these entries, intervals and field 06.
fn timed(entries: &[&[u8]], times: &[u8]) -> Vec<u8> {
    let entries: Vec<_> = entries.iter().map(|entry| field(4, entry)).collect();
    [&line(), &entries.concat(), &INTERVALS[..], times].concat()
}

/// The largest length that a request of 1 to this target may have; nothing if there is none.
fn largest(file: &[u8], target: u8) -> Option<u16> {
    let spwd = under(file);
    let permits = |length| match spwd.clone().request(1, target, READ, length) {
        Ok(0) => true,
        Err(Refusal::NOT_PERMITTED) => false,
        other => panic!("{other:?}"),
    };
    let largest = (0..=LENGTH_MOST).rev().find(|&length| permits(length));
    assert!((0..largest.unwrap_or(0)).all(permits));
    largest
}

/// At R 4, S 200 and 5,000 each, span 1.
#[test]
fn samples() {
    for (slot_length, length) in [
        (39_450, Some(256)),
        (39_449, Some(255)),
        (26_650, Some(0)),
        (26_649, None),
        (0, None),
    ] {
        let file = timed(&[&[1, 0, 1, 3]], &slots_of(slot_length));
        let verdict = Verdict::from(Spwd::new().load(&file));
        assert_eq!(verdict.to_string(), "ACCEPTED 7 6 2 1");
        assert_eq!(largest(&file, 3), length, "{slot_length}");
        assert_eq!(largest(&file, 2), None);
    }
}

/// The time of the data takes the place of 256 bytes for each slot, up as well as down, and 4,096 bytes stay the most.
#[test]
fn up_and_down() {
    let entries: &[&[u8]] = &[&[1, 0, 1, 2], &[1, 4, 2, 3]];
    let fits = |slot_length| {
        let file = timed(entries, &slots_of(slot_length));
        (largest(&file, 2), largest(&file, 3))
    };
    assert_eq!(fits(35_550), (Some(256), Some(889)));
    assert_eq!(fits(20_000), (None, Some(267)));
    assert_eq!(fits(200_000), (Some(3_545), Some(LENGTH_MOST)));
    assert_eq!(
        fits(SLOT_LENGTH_MOST),
        (Some(LENGTH_MOST), Some(LENGTH_MOST))
    );
    let untimed = timed(entries, &[]);
    assert_eq!(
        (largest(&untimed, 2), largest(&untimed, 3)),
        (Some(256), Some(512))
    );
    let mut spwd = under(&timed(entries, &slots_of(SLOT_LENGTH_MOST)));
    assert_eq!(
        spwd.request(1, 3, READ, LENGTH_MOST + 1),
        Err(Refusal::LENGTH_OVER_MOST)
    );
}

/// A request that only the longer entry permits is passed over at the shorter one.
#[test]
fn starts() {
    let mut spwd = under(&timed(&[&[1, 0, 1, 3], &[1, 1, 2, 3]], &slots_of(39_450)));
    assert_eq!(spwd.request(1, 3, WRITE, 257), Ok(0));
    assert_eq!(spwd.request(1, 3, READ, 256), Ok(1));
    let mut buffer = [0; RECORDS_ROOM];
    let mut started = |byte| {
        let count = spwd
            .time_code(byte, 100 * u32::from(byte), &mut buffer)
            .unwrap();
        let of_kind = |record: &Record| record.kind == Record::STARTED;
        let record = records(&buffer, count).find(of_kind).unwrap();
        (record.transaction, record.length)
    };
    assert_eq!(started(0), (1, 256));
    assert_eq!(started(1), (0, 257));
}

/// Each number of 06, as it is written into the field.
fn numbered(place: usize, number: u32) -> Vec<u8> {
    let mut numbers = [FIVE; 5];
    match place.checked_sub(1) {
        None => return times(number as u16, numbers),
        Some(place) => numbers[place] = number,
    }
    times(200, numbers)
}

#[track_caller]
fn prints(file: &[u8], line: &str) {
    assert_eq!(Verdict::from(Spwd::new().load(file)).to_string(), line);
}

#[test]
fn bounds_of_the_numbers() {
    let (least, most) = (u32::from(RATE_LEAST), u32::from(RATE_MOST));
    assert_eq!(LATENCY_MOST, SLOT_LENGTH_MOST);
    for place in 0..6 {
        let (good, bad) = match place {
            0 => ([least, most], [least - 1, most + 1, 0, 65_535]),
            _ => (
                [0, LATENCY_MOST],
                [LATENCY_MOST + 1, 1 << 24, 1 << 31, u32::MAX],
            ),
        };
        for number in good {
            let file = [smallest(), numbered(place, number)].concat();
            prints(&file, "ACCEPTED 2 1 1 1");
        }
        for number in bad {
            let file = [smallest(), numbered(place, number)].concat();
            prints(&file, "REFUSED 6 40");
        }
    }
}

#[test]
fn lengths_of_the_field() {
    let whole = slots_of(39_450);
    for length in [0, 1, 21, 23, 44] {
        let mut content = whole[3..].repeat(2);
        content.truncate(length);
        let file = [&INTERVALS[..], &field(6, &content)].concat();
        prints(&file, "REFUSED 5 11");
    }
    for cut in 1..whole.len() {
        let file = [&INTERVALS[..], &whole[..cut]].concat();
        prints(&file, "REFUSED 2 11");
    }
}

/// At most once, behind the intervals and not in their place; a second one is refused for that, whatever it says.
#[test]
fn place_of_the_field() {
    let whole = slots_of(39_450);
    for second in [&whole[..], &numbered(0, 0), &field(6, &[])] {
        prints(&[&INTERVALS[..], &whole, second].concat(), "REFUSED 4 36");
    }
    prints(&[&whole, &INTERVALS[..]].concat(), "REFUSED 4 25");
    prints(&whole, "REFUSED 12 25");
    prints(
        &[&INTERVALS[..], &whole, &field(8, &[])].concat(),
        "REFUSED 3 36",
    );
}

/// A target that is never permitted counts in clashes all the same.
#[test]
fn clashes() {
    let clash = plan_a(&[&[1, 0, 1, 3, 4], &[2, 0, 1, 4]]);
    for slot_length in [0, SLOT_LENGTH_MOST] {
        let file = [&clash[..], &slots_of(slot_length)].concat();
        prints(&file, "REFUSED 14 0 1 2 3");
    }
}

#[test]
fn written_out_and_read_back() {
    let entries: &[&[u8]] = &[&[1, 63, 2, 2, 3]];
    let file = timed(entries, &times(399, [1, 256, 65_536, 1_000_000, 999_999]));
    let spwd = under(&file);
    for room in [file.len(), WRITTEN_MOST] {
        let mut out = vec![0xa5; room];
        assert_eq!(spwd.write_out(&mut out), Ok(file.len()));
        assert_eq!(out[..file.len()], file);
        assert!(out[file.len()..].iter().all(|&byte| byte == 0xa5));
    }
    let mut out = vec![0xa5; file.len() - 1];
    assert_eq!(spwd.write_out(&mut out), Err(Refusal::SMALL_ROOM));
    assert_eq!(out, vec![0xa5; file.len() - 1]);
    assert!(spwd.holds(&file, &mut Plan::new()));
    assert_eq!(under(&file), spwd);
}

/// Plans that differ in one number of 06, or in having one, are different plans.
#[test]
fn times_are_part_of_the_plan() {
    let file = |times: &[u8]| [&first(), times].concat();
    let spwd = under(&file(&slots_of(FIVE)));
    for place in 0..6 {
        let other = file(&numbered(place, 7));
        assert!(!spwd.holds(&other, &mut Plan::new()), "{place}");
        assert_ne!(under(&other).plan(), spwd.plan(), "{place}");
    }
    assert!(!spwd.holds(&first(), &mut Plan::new()));
    assert!(!under(&first()).holds(&file(&slots_of(FIVE)), &mut Plan::new()));
}

/// A load without times behind one with them has the old rule again, and a clear leaves none.
#[test]
fn no_times_are_kept() {
    let mut spwd = under(&[&first()[..], &slots_of(0)].concat());
    assert_eq!(spwd.request(1, 3, READ, 0), Err(Refusal::NOT_PERMITTED));
    spwd.load(&first()).unwrap();
    assert_eq!(spwd, under(&first()));
    assert_eq!(spwd.request(1, 3, READ, 256), Ok(0));
    spwd.load(&[&first()[..], &slots_of(0)].concat()).unwrap();
    spwd.clear();
    assert_eq!(spwd, Spwd::new());
    assert!(spwd.is_blank());
}
