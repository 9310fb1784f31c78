//! The next turn: each refusal and their order, the count, and the summary beside a search over all
//! entries.

mod common;

use common::model::{Model, ModelPlan};
use common::{
    device, entry, first_plan, intervals, link, path, plan_a, reply, row_plan, two_ways,
    usual_times, Driver, Random,
};
use reference::{Answer, Unit};
use std::collections::BTreeSet;

/// Slots from the given one to the other, 64 if they are the same.
fn distance(from: u8, to: u8) -> u8 {
    (1..=64).find(|count| (from + count) % 64 == to).unwrap()
}

/// The turns of 1 to 3 under plan A with these entries, for a length, from every slot.
fn assert_turns(entries: &[Vec<u8>], length: u16, turns: &[u8]) {
    let driver = Driver::new(&plan_a(entries));
    for slot in 0..64 {
        let nearest = turns.iter().map(|&turn| distance(slot, turn)).min();
        assert_eq!(driver.next(1, 3, length, slot), (0, nearest.unwrap()));
    }
}

#[test]
fn the_slot_after_is_1_and_the_same_slot_64() {
    let driver = Driver::new(&plan_a(&[entry(1, 5, 1, &[3])]));
    assert_eq!(driver.next(1, 3, 256, 4), (0, 1));
    assert_eq!(driver.next(1, 3, 256, 5), (0, 64));
    assert_eq!(driver.next(1, 3, 256, 6), (0, 63));
    assert_eq!(driver.next(1, 3, 256, 3), (0, 2));
}

#[test]
fn one_turn_from_every_slot() {
    for turn in 0..64 {
        assert_turns(&[entry(1, turn, 1, &[3])], 256, &[turn]);
    }
}

#[test]
fn after_63_comes_0() {
    let ends = [entry(1, 63, 1, &[3]), entry(1, 0, 1, &[3])];
    for (entries, answers) in [
        (&ends[..1], [(62, 1), (63, 64), (0, 63), (1, 62)]),
        (&ends[1..], [(62, 2), (63, 1), (0, 64), (1, 63)]),
        (&ends, [(62, 1), (63, 1), (0, 63), (1, 62)]),
    ] {
        let driver = Driver::new(&plan_a(entries));
        for (slot, count) in answers {
            assert_eq!(driver.next(1, 3, 0, slot), (0, count));
        }
    }
}

#[test]
fn the_nearest_of_several() {
    let entries = [40, 7, 8, 63, 20].map(|slot| entry(1, slot, 1, &[4, 3]));
    assert_turns(&entries, 1, &[7, 8, 20, 40, 63]);
    let each: Vec<Vec<u8>> = (0..64).map(|slot| entry(1, slot, 1, &[3])).collect();
    assert_turns(&each, 256, &(0..64).collect::<Vec<u8>>());
}

#[test]
fn a_slot_that_is_only_covered_is_no_turn() {
    for (slot, span) in [(0, 16), (62, 4), (63, 2), (20, 3)] {
        assert_turns(&[entry(1, slot, span, &[3])], 256, &[slot]);
    }
    // An entry that ends where the next one stands.
    let entries = [entry(1, 60, 6, &[3]), entry(1, 2, 1, &[3])];
    assert_turns(&entries, 256, &[60, 2]);
}

#[test]
fn entries_of_others_are_no_turns() {
    // Of another target, and of another initiator.
    let entries = [
        entry(1, 10, 1, &[3]),
        entry(1, 20, 1, &[4]),
        entry(2, 30, 1, &[3]),
        entry(2, 40, 1, &[4, 3]),
    ];
    let driver = Driver::new(&plan_a(&entries));
    for slot in 0..64 {
        assert_eq!(driver.next(1, 3, 9, slot), (0, distance(slot, 10)));
        assert_eq!(driver.next(1, 4, 9, slot), (0, distance(slot, 20)));
        let nearest = distance(slot, 30).min(distance(slot, 40));
        assert_eq!(driver.next(2, 3, 9, slot), (0, nearest));
        assert_eq!(driver.next(2, 4, 9, slot), (0, distance(slot, 40)));
    }
}

#[test]
fn lengths_at_256_bytes_a_slot() {
    for span in 1..=16 {
        let entries = [entry(1, 50, span, &[3]), entry(2, 30, 1, &[4])];
        let most = 256 * u16::from(span);
        for length in [0, 1, 256, most - 1, most] {
            assert_turns(&entries, length, &[50]);
        }
        let driver = Driver::new(&plan_a(&entries));
        let over = if span == 16 { (24, 0) } else { (25, 0) };
        assert_eq!(driver.next(1, 3, most + 1, 0), over);
    }
}

#[test]
fn short_entries_are_passed_over() {
    // Not in the order of their slots, and the span of one with the target of another is not enough.
    let entries = [
        entry(1, 30, 1, &[3, 4]),
        entry(1, 10, 2, &[3]),
        entry(1, 20, 3, &[3]),
        entry(1, 40, 4, &[4]),
    ];
    assert_turns(&entries, 256, &[10, 20, 30]);
    assert_turns(&entries, 257, &[10, 20]);
    assert_turns(&entries, 512, &[10, 20]);
    assert_turns(&entries, 513, &[20]);
    assert_turns(&entries, 768, &[20]);
    let driver = Driver::new(&plan_a(&entries));
    assert_eq!(driver.next(1, 3, 769, 9), (25, 0));
    assert_eq!(driver.next(1, 4, 257, 30), (0, 10));
    assert_eq!(driver.next(1, 4, 256, 40), (0, 54));
}

#[test]
fn lengths_by_the_times() {
    let entries = [
        entry(0, 0, 3, &[1]),
        entry(0, 10, 1, &[2]),
        entry(0, 20, 1, &[1, 2]),
    ];
    // What else there is behind one router takes 22,700 ns, behind two 24,000, and a byte 50.
    let driver = Driver::new(&row_plan(&entries, &usual_times(25_000)));
    assert_eq!(driver.next(0, 1, 45, 5), (0, 15));
    assert_eq!(driver.next(0, 1, 46, 5), (0, 59));
    assert_eq!(driver.next(0, 1, 1_045, 20), (0, 44));
    assert_eq!(driver.next(0, 1, 1_046, 20), (25, 0));
    assert_eq!(driver.next(0, 2, 19, 5), (0, 5));
    assert_eq!(driver.next(0, 2, 19, 10), (0, 10));
    assert_eq!(driver.next(0, 2, 20, 5), (25, 0));
    // More than 256 bytes a slot, and none at all.
    let roomy = Driver::new(&row_plan(&entries, &usual_times(1_000_000)));
    assert_eq!(roomy.next(0, 1, 4_096, 5), (0, 15));
    let tight = Driver::new(&row_plan(&entries, &usual_times(22_749)));
    assert_eq!(tight.next(0, 1, 0, 5), (0, 59));
    assert_eq!(tight.next(0, 2, 0, 5), (25, 0));
    let empty = Driver::new(&row_plan(&entries, &usual_times(0)));
    assert_eq!(empty.next(0, 1, 0, 5), (25, 0));
}

#[test]
fn a_reply_over_a_longer_way_makes_less_room() {
    let with = |replies: &[Vec<u8>]| {
        let paths = [path(1, 3, &[0, 2]), path(1, 4, &[21, 24])];
        let entries = [entry(1, 0, 1, &[3, 4]), entry(1, 1, 2, &[3, 4])];
        let times = [usual_times(25_000)];
        Driver::new(&two_ways(&[&paths[..], &entries, &times, replies].concat()))
    };
    // One router there and three back leave 1,000 ns of a slot for data and CRC, one each way 2,300.
    let (round, plain) = (with(&[reply(1, 3, &[2, 4, 6, 21])]), with(&[]));
    for driver in [&round, &plain] {
        assert_eq!(driver.next(1, 3, 19, 5), (0, 59));
        assert_eq!(driver.next(1, 4, 45, 5), (0, 59));
        assert_eq!(driver.next(1, 4, 46, 5), (0, 60));
        assert_eq!(driver.next(1, 3, 519, 5), (0, 60));
    }
    assert_eq!(round.next(1, 3, 20, 5), (0, 60));
    assert_eq!(plain.next(1, 3, 20, 5), (0, 59));
    assert_eq!(round.next(1, 3, 520, 5), (25, 0));
    assert_eq!(plain.next(1, 3, 520, 5), (0, 60));
}

#[test]
fn a_reply_over_a_shorter_way_makes_more_room() {
    let with = |replies: &[Vec<u8>]| {
        let fields = [path(1, 3, &[21, 6, 4, 2]), entry(1, 0, 1, &[3])];
        let times = [usual_times(25_000)];
        Driver::new(&two_ways(&[&fields[..], &times, replies].concat()))
    };
    // Three routers each way take 25,300 ns beside the data and its CRC, three there and one back
    // 24,000.
    assert_eq!(with(&[]).next(1, 3, 0, 0), (25, 0));
    let short = with(&[reply(1, 3, &[2, 0])]);
    assert_eq!(short.next(1, 3, 19, 0), (0, 64));
    assert_eq!(short.next(1, 3, 20, 0), (25, 0));
}

/// What makes a question refused under the first plan, with the number of the refusal.
const FAULTS: [u8; 4] = [22, 24, 25, 33];

/// A question with those of the faults whose bits are set, in the order of their numbers.
fn question(faults: usize) -> (u8, u8, u16, u8) {
    let has = |fault: usize| faults >> fault & 1 == 1;
    (
        if has(0) { 9 } else { 1 },
        if has(2) { 4 } else { 3 },
        if has(1) { 4_097 } else { 256 },
        if has(3) { 64 } else { 63 },
    )
}

#[test]
fn the_smaller_number_first() {
    let driver = Driver::new(&first_plan());
    for faults in 0..16 {
        let (initiator, target, length, slot) = question(faults);
        let expected = match faults {
            0 => (0, 1),
            _ => (FAULTS[faults.trailing_zeros() as usize], 0),
        };
        assert_eq!(driver.next(initiator, target, length, slot), expected);
        let blank = Driver::cleared().next(initiator, target, length, slot);
        assert_eq!(blank, (20, 0));
    }
}

#[test]
fn refusal_20_no_plan() {
    let full = plan_a(&[entry(1, 0, 1, &[3, 4]), entry(1, 1, 16, &[3])]);
    let clash = plan_a(&[entry(1, 63, 2, &[3]), entry(2, 0, 1, &[3])]);
    let overlap = plan_a(&[entry(1, 63, 2, &[3]), entry(1, 0, 1, &[3])]);
    let twice = plan_a(&[entry(1, 2, 1, &[3]), entry(1, 2, 1, &[3])]);
    let unfinished = full[..full.len() - 11].to_vec();
    for (number, refused) in [
        (14, clash),
        (13, overlap),
        (7, twice),
        (12, unfinished),
        (15, plan_a(&[])),
        (12, Vec::new()),
    ] {
        let mut driver = Driver::new(&full);
        let verdict = driver.unit.load(&refused, &mut driver.watchdog);
        assert_eq!(verdict.number(), number);
        assert_eq!(driver.next(1, 3, 0, 0), (20, 0));
        assert_eq!(driver.unit, Unit::new());
    }
    let mut driver = Driver::new(&full);
    driver.unit.clear(&mut driver.watchdog);
    assert_eq!(driver.next(1, 3, 0, 0), (20, 0));
    assert_eq!(driver.unit, Unit::new());
}

#[test]
fn refusal_22_no_initiator() {
    let driver = Driver::new(&first_plan());
    for initiator in (0..=255).filter(|initiator| ![1, 2].contains(initiator)) {
        assert_eq!(driver.next(initiator, 3, 0, 0), (22, 0));
        assert_eq!(driver.next(initiator, 200, 65_535, 255), (22, 0));
    }
}

#[test]
fn refusal_24_length() {
    let driver = Driver::new(&plan_a(&[entry(1, 0, 16, &[3])]));
    assert_eq!(driver.next(1, 3, 4_096, 63), (0, 1));
    for length in [4_097, 4_098, 8_192, 65_535] {
        assert_eq!(driver.next(1, 3, length, 63), (24, 0));
        assert_eq!(driver.next(1, 200, length, 255), (24, 0));
    }
}

#[test]
fn refusal_25_not_permitted() {
    let driver = Driver::new(&plan_a(&[entry(1, 0, 1, &[3])]));
    for target in (0..=255).filter(|&target| target != 3) {
        assert_eq!(driver.next(1, target, 0, 0), (25, 0));
        assert_eq!(driver.next(1, target, 0, 255), (25, 0));
    }
    assert_eq!(driver.next(1, 3, 257, 0), (25, 0));
    assert_eq!(driver.next(1, 3, 257, 64), (25, 0));
    // It has paths and no entry.
    assert_eq!(driver.next(2, 4, 0, 0), (25, 0));
}

#[test]
fn refusal_33_slot() {
    let driver = Driver::new(&first_plan());
    for slot in 64..=255 {
        assert_eq!(driver.next(1, 3, 0, slot), (33, 0));
        assert_eq!(driver.next(1, 3, 256, slot), (33, 0));
    }
    assert_eq!(driver.next(1, 3, 0, 63), (0, 1));
}

#[test]
fn only_the_plan_is_asked() {
    let mut driver = Driver::new(&plan_a(&[entry(1, 5, 3, &[3]), entry(2, 5, 1, &[4])]));
    let answers = |driver: &Driver| -> Vec<(u8, u8)> {
        let slots = (0..=70).map(|slot| driver.next(1, 3, 700, slot));
        slots.chain([driver.next(2, 4, 257, 0)]).collect()
    };
    let expected = answers(&driver);
    for number in 0..8 {
        assert_eq!(driver.request(1, 3, 0, 700), Answer::Taken { number });
    }
    assert_eq!(answers(&driver), expected);
    for value in [5, 6, 7, 8, 9, 33] {
        driver.time_code(value, 100 * u32::from(value));
        assert_eq!(answers(&driver), expected);
    }
    driver.watchdog.seen = 7;
    driver.reply(1, 0, 0);
    assert_eq!(answers(&driver), expected);
}

#[test]
fn another_load_replaces_the_turns() {
    let eight: Vec<u8> = drawn(&mut Random(8), 8).concat();
    let first = plan_a(&[
        entry(1, 5, 16, &[3, 4]),
        entry(1, 30, 1, &[3]),
        entry(2, 60, 2, &[3]),
    ]);
    let second = plan_a(&[entry(1, 6, 1, &[3]), entry(2, 7, 1, &[4])]);
    for before in [&eight, &first] {
        let mut driver = Driver::new(before);
        driver.unit.load(&second, &mut driver.watchdog);
        assert_eq!(driver.unit, Driver::new(&second).unit);
        for slot in 0..64 {
            assert_eq!(driver.next(1, 3, 0, slot), (0, distance(slot, 6)));
            assert_eq!(driver.next(2, 4, 0, slot), (0, distance(slot, 7)));
            assert_eq!(driver.next(1, 3, 257, slot), (25, 0));
            assert_eq!(driver.next(1, 4, 0, slot), (25, 0));
            assert_eq!(driver.next(2, 3, 0, slot), (25, 0));
        }
    }
}

/// So many initiators from 0 up, each with two targets that nobody else reaches. Of initiator i, link
/// i leads to its router 8 + i, link 8 + i from there to its router 16 + i, and the targets 24 + 2i and
/// 25 + 2i stand at the first of these by the links 16 + 2i and 17 + 2i, at the second by 32 + 2i and
/// 33 + 2i. The commands to one go the short way, those to the other the long one, their replies in
/// some plans the other way round. Every initiator has some entries, of any span.
fn drawn(random: &mut Random, initiators: u8) -> Vec<Vec<u8>> {
    let mut fields = Vec::new();
    let replied = random.chance(50);
    for who in 0..initiators {
        let (near, far) = (8 + who, 16 + who);
        let targets = [24 + 2 * who, 25 + 2 * who];
        fields.extend([device(who, 0), device(near, 1), device(far, 1)]);
        fields.extend([link(who, who, near), link(near, near, far)]);
        for target in targets {
            fields.push(device(target, 0));
            fields.push(link(target - 8, target, near));
            fields.push(link(target + 8, target, far));
        }
        let [one, other] = targets;
        fields.push(path(who, one, &[who, one - 8]));
        fields.push(path(who, other, &[who, near, other + 8]));
        if replied {
            fields.push(reply(who, one, &[one + 8, near, who]));
            fields.push(reply(who, other, &[other - 8, who]));
        }
        let from = random.below(64) as u8;
        let mut covered = random.below(10) as u8;
        while covered < 48 {
            let span = 1 + random.below(16) as u8;
            let listed = random.pick(&[&targets[..1], &targets[1..], &targets]);
            fields.push(entry(who, (from + covered) % 64, span, listed));
            covered += span + random.below(10) as u8;
        }
    }
    fields.push(intervals(90, 110));
    if random.chance(50) {
        fields.push(usual_times(20_000 + random.below(40_000) as u32));
    }
    random.shuffle(&mut fields);
    fields.sort_by_key(|field| field[0]);
    fields
}

/// The lengths around each that the initiator's entries have just room for.
fn lengths(plan: &ModelPlan, initiator: u8, target: u8) -> BTreeSet<u16> {
    let mut lengths = BTreeSet::from([0, 4_096, 4_097]);
    if !plan.paths.contains_key(&(initiator, target)) {
        return lengths;
    }
    for (&(other, _), &(span, _)) in &plan.entries {
        if other == initiator {
            let fits = |length: &u16| plan.fits(initiator, span, target, *length);
            let most = (0..=4_096).rev().find(fits);
            lengths.extend(most.into_iter().flat_map(|most| [most, most + 1]));
        }
    }
    lengths
}

/// Drawn plans, with all that may be asked of the turns under them but for the slot: known initiators
/// and one that is none, their targets, one of another initiator and one that is none, and lengths.
fn each_question(cases: u64, mut ask: impl FnMut(&Driver, &Model, (u8, u8, u16))) {
    for case in 0..cases {
        let mut random = Random(0x7e47 + case);
        let initiators = 1 + random.below(8) as u8;
        let file = drawn(&mut random, initiators).concat();
        let driver = Driver::new(&file);
        let mut model = Model::new();
        assert_eq!(model.load(&file).0, 0);
        for initiator in 0..=initiators {
            let own = 24 + 2 * initiator;
            for target in [own, own + 1, (own + 2) % 40, 64 + own] {
                for length in lengths(model.plan().unwrap(), initiator, target) {
                    ask(&driver, &model, (initiator, target, length));
                }
            }
        }
    }
}

#[test]
fn the_summary_tells_what_all_entries_do() {
    let mut seen = BTreeSet::new();
    each_question(40, |driver, model, (initiator, target, length)| {
        for slot in (0..=64).chain([127, 255]) {
            let answer = driver.next(initiator, target, length, slot);
            let expected = model.next(initiator, target, length, slot);
            assert_eq!(answer, expected, "{initiator} {target} {length} {slot}");
            seen.insert(answer);
        }
    });
    let mut all: BTreeSet<(u8, u8)> = (1..=64).map(|count| (0, count)).collect();
    all.extend([22, 24, 25, 33].map(|number| (number, 0)));
    assert_eq!(seen, all);
}

#[test]
fn refused_with_25_where_a_request_is() {
    let mut seen = BTreeSet::new();
    each_question(40, |driver, _, (initiator, target, length)| {
        let asked = driver.clone().request(initiator, target, 0, length);
        let (number, _) = driver.next(initiator, target, length, 9);
        assert_eq!(number, asked.number(), "{initiator} {target} {length}");
        seen.insert(number);
    });
    assert_eq!(seen, BTreeSet::from([0, 22, 24, 25]));
}

#[test]
fn a_request_starts_at_its_turn() {
    let mut random = Random(0x51a7);
    each_question(10, |driver, _, (initiator, target, length)| {
        let mut driver = driver.clone();
        let slot = random.below(64) as u8;
        driver.time_code(slot, 0);
        if driver.request(initiator, target, 0, length).number() != 0 {
            return;
        }
        let (_, count) = driver.next(initiator, target, length, slot);
        for later in 1..=count {
            let value = (slot + later) % 64;
            let records = driver.time_code(value, 100 * u32::from(later));
            let started = records.iter().any(|record| record[0] == 5);
            assert_eq!(started, later == count, "{initiator} {target} {length}");
        }
    });
}
