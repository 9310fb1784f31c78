//! Replies that come home another way: field 07.

mod common;

use common::model::{time, ModelPlan};
use common::{
    all_ways, device, entry, field, intervals, link, path, plan_a, reply, split, times, two_ways,
    usual_times, verdict, way, way_back, Driver, Random,
};
use reference::{Answer, Event, Refusal, Unit};

/// Commands over the routers 10 and 11.
fn paths() -> Vec<Vec<u8>> {
    vec![
        path(1, 3, &[0, 2]),
        path(1, 4, &[0, 4, 3]),
        path(2, 4, &[1, 3]),
        path(2, 3, &[1, 4, 2]),
    ]
}

fn with(fields: &[Vec<u8>], more: &[Vec<u8>]) -> Vec<Vec<u8>> {
    [fields, more].concat()
}

/// A plan with those paths that a reply may stand behind: without times, and with them.
fn plans() -> [Vec<u8>; 2] {
    let fields = with(&paths(), &[entry(1, 0, 1, &[3]), entry(2, 0, 1, &[4])]);
    let timed = with(&fields, &[usual_times(39_450)]);
    [two_ways(&fields), two_ways(&timed)]
}

fn assert_accepted(replies: &[Vec<u8>]) {
    for plan in plans() {
        let file = [plan, replies.concat()].concat();
        assert_eq!(verdict(&file), "ACCEPTED 7 11 4 2", "{replies:?}");
    }
}

/// The field behind these replies gets this verdict, named by its own offset, also with more behind it.
fn assert_fault(number: u8, replies: &[Vec<u8>], field: &[u8]) {
    for plan in plans() {
        let before = [plan, replies.concat()].concat();
        let expected = format!("REFUSED {number} {}", before.len());
        for more in [&[][..], &[9], &intervals(1, 2)] {
            let file = [&before, field, more].concat();
            assert_eq!(verdict(&file), expected, "{field:?}");
        }
    }
}

#[test]
fn not_counted_in_the_verdict() {
    assert_accepted(&[]);
    assert_accepted(&[reply(1, 3, &[23, 21])]);
    assert_accepted(&[
        reply(2, 4, &[24, 22]),
        reply(1, 4, &[24, 21]),
        reply(1, 3, &[23, 21]),
        reply(2, 3, &[23, 22]),
    ]);
}

#[test]
fn makes_no_initiator() {
    for plan in plans() {
        let mut driver = Driver::new(&[plan, reply(1, 3, &[23, 21])].concat());
        for initiator in [3, 4, 10, 12] {
            let asked = Event::Request {
                initiator,
                target: 1,
                kind: 0,
                length: 0,
            };
            driver.refuses(asked, 0, Refusal::NoInitiator);
            let answered = Event::Reply {
                initiator,
                number: 0,
                status: 0,
            };
            driver.refuses(answered, 0, Refusal::NoInitiator);
        }
    }
}

#[test]
fn verdict_6_range() {
    assert_fault(6, &[], &reply(64, 3, &[2, 0]));
    assert_fault(6, &[], &reply(255, 3, &[2, 0]));
    assert_fault(6, &[], &reply(1, 64, &[2, 0]));
    assert_fault(6, &[], &reply(1, 67, &[2, 0]));
    assert_fault(6, &[], &reply(1, 1, &[0]));
    assert_fault(6, &[], &reply(3, 3, &[2, 0]));
    for count in 1..=8 {
        for place in 0..count {
            let mut links = vec![2; count];
            links[place] = 64 + place as u8;
            assert_fault(6, &[], &reply(1, 3, &links));
        }
    }
}

#[test]
fn verdict_6_at_the_bounds() {
    let ends = [device(0, 0), device(63, 0), link(63, 0, 63), link(0, 0, 63)].concat();
    for (initiator, target) in [(0, 63), (63, 0)] {
        let path = path(initiator, target, &[63]);
        let entry = entry(initiator, 0, 1, &[target]);
        let before = [&ends[..], &path, &entry, &intervals(0, 1)].concat();
        for links in [[0], [63]] {
            let file = [&before[..], &reply(initiator, target, &links)].concat();
            assert_eq!(verdict(&file), "ACCEPTED 2 2 1 1");
        }
        let file = [&before[..], &reply(initiator, target, &[64])].concat();
        assert_eq!(verdict(&file), format!("REFUSED 6 {}", before.len()));
    }
}

#[test]
fn verdict_7_second_reply() {
    let first = reply(1, 3, &[23, 21]);
    for links in [&[23, 21][..], &[2, 0], &[0, 2], &[23]] {
        assert_fault(7, std::slice::from_ref(&first), &reply(1, 3, links));
    }
    let others = [reply(1, 4, &[24, 21]), reply(2, 3, &[23, 22]), first];
    assert_accepted(&others);
    assert_fault(7, &others, &reply(1, 3, &[2, 0]));
    assert_fault(7, &others, &reply(1, 4, &[24, 21]));
    assert_fault(7, &others, &reply(2, 3, &[23, 22]));
    assert_fault(11, &others, &reply(3, 1, &[0, 2]));
}

#[test]
fn verdict_8_not_given() {
    assert_fault(8, &[], &reply(5, 3, &[2, 0]));
    assert_fault(8, &[], &reply(1, 5, &[2, 0]));
    assert_fault(8, &[], &reply(1, 3, &[2, 25]));
    assert_fault(8, &[], &reply(1, 3, &[25, 0]));
    // A router at either end, of what would be a walk.
    assert_fault(8, &[], &reply(10, 3, &[2]));
    assert_fault(8, &[], &reply(1, 10, &[0]));
    for place in 0..8 {
        let mut links = [2; 8];
        links[place] = 63;
        assert_fault(8, &[], &reply(1, 3, &links));
    }
}

#[test]
fn verdict_10_walks_from_the_target() {
    // The way of the command back, through router 12, and through routers of the command's way.
    for links in [
        &[2, 0][..],
        &[23, 21],
        &[2, 5, 21],
        &[23, 5, 0],
        &[2, 4, 6, 21],
        &[23, 6, 4, 0],
    ] {
        assert_accepted(&[reply(1, 3, links)]);
        // The same way round as a command.
        let turned: Vec<u8> = links.iter().rev().copied().collect();
        assert_fault(10, &[], &reply(1, 3, &turned));
    }
    for (initiator, target, links) in [
        (1, 3, &[0, 2][..]),
        (1, 4, &[0, 4, 3]),
        (2, 4, &[1, 3]),
        (2, 3, &[1, 4, 2]),
    ] {
        assert_fault(10, &[], &reply(initiator, target, links));
        let back: Vec<u8> = links.iter().rev().copied().collect();
        assert_accepted(&[reply(initiator, target, &back)]);
    }
}

#[test]
fn verdict_10_no_walk() {
    for links in [
        // The first link does not touch the target.
        &[0][..],
        &[24, 21],
        &[5, 0],
        // A link does not lead on.
        &[2, 6, 21],
        &[23, 4, 0],
        // The last one does not reach the initiator.
        &[2],
        &[23, 22],
        &[2, 4],
        // Going on from the initiator.
        &[2, 0, 0],
        &[2, 0, 21],
        &[2, 0, 21, 21, 21],
        // A device met twice.
        &[2, 2, 23, 21],
        &[2, 5, 5, 0],
        &[2, 5, 6, 4, 0],
        &[23, 23, 2, 0],
        // A node stands between.
        &[2, 4, 3, 24, 21],
        &[23, 24, 3, 4, 0],
    ] {
        assert_fault(10, &[], &reply(1, 3, links));
    }
}

#[test]
fn a_walk_of_eight_links() {
    let fields = [path(0, 1, &way(0)), entry(0, 0, 1, &[1])];
    let plan = all_ways(&fields);
    for routers in 0..8 {
        let file = [&plan[..], &reply(0, 1, &way_back(routers))].concat();
        assert_eq!(way(routers).len(), 1 + usize::from(routers));
        assert_eq!(verdict(&file), "ACCEPTED 9 15 1 1");
        let turned = [&plan[..], &reply(0, 1, &way(routers))].concat();
        let expected = match routers {
            0 => "ACCEPTED 9 15 1 1".to_owned(),
            _ => format!("REFUSED 10 {}", plan.len()),
        };
        assert_eq!(verdict(&turned), expected);
    }
    let nine = [way_back(7), vec![20]].concat();
    let file = [&plan[..], &reply(0, 1, &nine)].concat();
    assert_eq!(verdict(&file), format!("REFUSED 5 {}", plan.len()));
}

#[test]
fn verdict_11_no_command() {
    // Nodes 1 and 2 are initiators, 3 and 4 are not.
    for (initiator, target, links) in [
        (1, 2, &[22, 21][..]),
        (2, 1, &[21, 22]),
        (3, 1, &[21, 23]),
        (3, 1, &[0, 2]),
        (4, 2, &[1, 3]),
        (3, 4, &[24, 23]),
    ] {
        assert_fault(11, &[], &reply(initiator, target, links));
        assert_fault(
            11,
            &[reply(1, 3, &[23, 21])],
            &reply(initiator, target, links),
        );
    }
    // Each pair by itself: a path from either end to another node is not enough.
    let fields = [path(1, 3, &[0, 2]), path(2, 4, &[1, 3])];
    let plan = two_ways(&with(&fields, &[entry(1, 0, 1, &[3])]));
    for (wrong, links) in [((1, 4), [24, 21]), ((2, 3), [23, 22])] {
        let file = [&plan[..], &reply(wrong.0, wrong.1, &links)].concat();
        assert_eq!(verdict(&file), format!("REFUSED 11 {}", plan.len()));
    }
}

#[test]
fn the_smaller_number_wins() {
    let first = [reply(1, 3, &[23, 21])];
    // 5 before 6 and 7.
    assert_fault(5, &first, &reply(64, 64, &[]));
    assert_fault(5, &first, &reply(1, 3, &[]));
    assert_fault(5, &first, &reply(1, 3, &[64; 9]));
    // 6 before 7, 8, 10 and 11.
    assert_fault(6, &first, &reply(1, 3, &[64]));
    assert_fault(6, &first, &reply(5, 5, &[60]));
    assert_fault(6, &first, &reply(3, 3, &[0, 2]));
    assert_fault(6, &first, &reply(10, 1, &[0, 64]));
    // 7 before 8 and 10.
    assert_fault(7, &first, &reply(1, 3, &[60]));
    assert_fault(7, &first, &reply(1, 3, &[0, 2]));
    // 8 before 10 and 11.
    assert_fault(8, &first, &reply(1, 4, &[60, 0]));
    assert_fault(8, &first, &reply(10, 3, &[21]));
    assert_fault(8, &first, &reply(3, 10, &[2]));
    assert_fault(8, &first, &reply(3, 1, &[21, 60]));
    // 10 before 11.
    assert_fault(10, &first, &reply(3, 1, &[2, 0]));
    assert_fault(10, &first, &reply(1, 2, &[21, 22]));
    assert_fault(11, &first, &reply(1, 2, &[22, 21]));
}

#[test]
fn verdict_2_cut() {
    let cut = reply(1, 3, &[23, 21]);
    for plan in plans() {
        for size in 1..cut.len() {
            let file = [&plan, &cut[..size]].concat();
            assert_eq!(verdict(&file), format!("REFUSED 2 {}", plan.len()));
            let second = [&plan[..], &reply(2, 3, &[23, 22]), &cut[..size]].concat();
            let place = plan.len() + cut.len();
            assert_eq!(verdict(&second), format!("REFUSED 2 {place}"));
        }
    }
}

#[test]
fn verdict_3_behind_a_reply() {
    for tag in [0, 8, 9, 255] {
        for content in [&[][..], &[1, 3, 2, 0]] {
            assert_fault(3, &[], &field(tag, content));
            assert_fault(3, &[reply(1, 3, &[2, 0])], &field(tag, content));
        }
    }
}

#[test]
fn verdict_4_behind_a_reply() {
    for late in [
        usual_times(39_450),
        field(6, &[]),
        times(1, [0; 5]),
        intervals(90, 110),
        field(5, &[]),
        entry(1, 5, 1, &[3]),
        field(4, &[]),
        path(3, 1, &[2, 0]),
        field(3, &[]),
        link(9, 1, 2),
        device(9, 0),
    ] {
        assert_fault(4, &[reply(1, 3, &[2, 0])], &late);
    }
}

#[test]
fn replies_come_behind_all_else() {
    // A reply before the intervals, before the times, before an entry.
    let fields = split(&plans()[1]);
    let (five, six) = (fields.len() - 2, fields.len() - 1);
    assert_eq!((fields[five][0], fields[six][0]), (5, 6));
    let early = reply(1, 3, &[2, 0]);
    for place in [five - 1, five, six] {
        let before = fields[..place].concat();
        let behind = fields[place..].concat();
        let file = [&before[..], &early, &behind].concat();
        let expected = format!("REFUSED 4 {}", before.len() + early.len());
        assert_eq!(verdict(&file), expected);
    }
    // A path behind it is missing for it, and named itself no more.
    let paths = fields.iter().position(|field| field[0] == 3).unwrap();
    let before = fields[..paths].concat();
    let file = [&before[..], &early, &fields[paths..].concat()].concat();
    assert_eq!(verdict(&file), format!("REFUSED 11 {}", before.len()));
}

#[test]
fn verdict_5_length() {
    for length in (0..30).chain([256 + 3, 256 + 10]) {
        let content: Vec<u8> = [1, 3].into_iter().chain([64; 300]).take(length).collect();
        let number = match length {
            3..=10 => 6,
            _ => 5,
        };
        assert_fault(number, &[], &field(7, &content));
        assert_fault(number, &[reply(1, 3, &[2, 0])], &field(7, &content));
    }
}

#[test]
fn verdicts_12_and_15_come_after_the_replies() {
    let back = reply(1, 3, &[2, 0]);
    let mut fields = split(&plans()[1]);
    fields.push(back.clone());
    for tag in [4, 5] {
        let kept = fields.iter().filter(|field| field[0] != tag);
        let file = kept.flatten().copied().collect::<Vec<u8>>();
        let number = if tag == 4 { 15 } else { 12 };
        assert_eq!(verdict(&file), format!("REFUSED {number} {}", file.len()));
        // One at fault is named before.
        let twice = [&file[..], &back].concat();
        assert_eq!(verdict(&twice), format!("REFUSED 7 {}", file.len()));
    }
}

/// Nodes 0 to 7 and 8 to 31 around the routers 62 and 63: link n joins node n to the one and link
/// 32 + n, up to 63, to the other. 128 paths go over router 63.
fn eight_with_128_paths() -> Vec<Vec<u8>> {
    let mut fields: Vec<Vec<u8>> = (0..32).map(|number| device(number, 0)).collect();
    fields.extend([device(62, 1), device(63, 1)]);
    fields.extend((0..32).map(|number| link(number, number, 63)));
    fields.extend((0..32).map(|number| link(32 + number, number, 62)));
    for initiator in 0..8 {
        for target in 8..24 {
            fields.push(path(initiator, target, &[initiator, target]));
        }
    }
    fields.extend([entry(3, 0, 1, &[23]), intervals(90, 110)]);
    fields
}

#[test]
fn no_verdict_9() {
    let plan = eight_with_128_paths().concat();
    let mut file = plan.clone();
    for initiator in 0..8 {
        for target in 8..24 {
            let before = file.len();
            file.extend(reply(initiator, target, &[32 + target, 32 + initiator]));
            assert_eq!(verdict(&file), "ACCEPTED 34 64 128 1");
            // A ninth initiator, and a pair more: neither has a path.
            let mut other = file.clone();
            other.extend(reply(24, target, &[32 + target, 32 + 24]));
            assert_eq!(verdict(&other), format!("REFUSED 11 {}", file.len()));
            other.truncate(before);
            other.extend(reply(initiator, 24, &[32 + 24, 32 + initiator]));
            assert_eq!(verdict(&other), format!("REFUSED 11 {before}"));
        }
    }
    let again = [&file[..], &reply(7, 23, &[23, 7])].concat();
    assert_eq!(verdict(&again), format!("REFUSED 7 {}", file.len()));
}

/// The verdict with these paths and replies, where 1 sends to 4 and 2 to 3, both in slot 0.
fn crossing(one: [&[u8]; 2], other: [&[u8]; 2]) -> String {
    let mut fields = vec![path(1, 4, one[0]), path(2, 3, other[0])];
    fields.extend([entry(1, 0, 1, &[4]), entry(2, 0, 1, &[3])]);
    for ((initiator, target), [_, back]) in [((1, 4), one), ((2, 3), other)] {
        if !back.is_empty() {
            fields.push(reply(initiator, target, back));
        }
    }
    verdict(&two_ways(&fields))
}

const NO_CLASH: &str = "ACCEPTED 7 11 2 2";
const CLASH: &str = "REFUSED 14 0 1 2 4";
// Of 1 to 4 over link 4 and round it, there and back.
const OVER: &[u8] = &[0, 4, 3];
const ROUND: &[u8] = &[21, 24];
const OVER_BACK: &[u8] = &[3, 4, 0];
const ROUND_BACK: &[u8] = &[24, 21];
// Of 2 to 3 the same.
const OTHER_OVER: &[u8] = &[1, 4, 2];
const OTHER_ROUND: &[u8] = &[22, 23];
const OTHER_OVER_BACK: &[u8] = &[2, 4, 1];
const OTHER_ROUND_BACK: &[u8] = &[23, 22];
/// No reply.
const NONE: &[u8] = &[];

#[test]
fn verdict_14_command_against_command() {
    // Whatever the replies do.
    for back in [NONE, OVER_BACK, ROUND_BACK] {
        for other_back in [NONE, OTHER_OVER_BACK, OTHER_ROUND_BACK] {
            assert_eq!(crossing([OVER, back], [OTHER_OVER, other_back]), CLASH);
        }
    }
}

#[test]
fn verdict_14_command_against_reply() {
    for back in [NONE, OVER_BACK, ROUND_BACK] {
        let other = [OTHER_ROUND, OTHER_OVER_BACK];
        assert_eq!(crossing([OVER, back], other), CLASH);
    }
    for back in [NONE, OTHER_OVER_BACK, OTHER_ROUND_BACK] {
        let one = [ROUND, OVER_BACK];
        assert_eq!(crossing(one, [OTHER_OVER, back]), CLASH);
    }
}

#[test]
fn verdict_14_reply_against_reply() {
    // In opposite directions.
    let other = [OTHER_ROUND, OTHER_OVER_BACK];
    assert_eq!(crossing([ROUND, OVER_BACK], other), CLASH);
}

#[test]
fn no_clash_where_both_ways_of_one_go_round() {
    for back in [NONE, ROUND_BACK] {
        for other in [OTHER_OVER, OTHER_ROUND] {
            for other_back in [NONE, OTHER_OVER_BACK, OTHER_ROUND_BACK] {
                assert_eq!(crossing([ROUND, back], [other, other_back]), NO_CLASH);
            }
        }
    }
    for other_back in [NONE, OTHER_ROUND_BACK] {
        for one in [OVER, ROUND] {
            for back in [NONE, OVER_BACK, ROUND_BACK] {
                assert_eq!(crossing([one, back], [OTHER_ROUND, other_back]), NO_CLASH);
            }
        }
    }
}

/// The verdict where 1 and 2 both send to 4 in slot 0.
fn same_target(one: [&[u8]; 2], other: [&[u8]; 2]) -> String {
    let fields = [
        path(1, 4, one[0]),
        path(2, 4, other[0]),
        entry(1, 0, 1, &[4]),
        entry(2, 0, 1, &[4]),
        reply(1, 4, one[1]),
        reply(2, 4, other[1]),
    ];
    verdict(&two_ways(&fields))
}

#[test]
fn verdict_14_names_the_least_link_of_both_ways() {
    // The commands meet in 24 and the replies in 3, and the other way round.
    assert_eq!(
        same_target([&[21, 24], &[3, 4, 0]], [&[22, 24], &[3, 1]]),
        "REFUSED 14 0 1 2 3"
    );
    assert_eq!(
        same_target([&[0, 4, 3], &[24, 21]], [&[1, 3], &[24, 22]]),
        "REFUSED 14 0 1 2 3"
    );
    // They meet in 24 only.
    assert_eq!(
        same_target([&[21, 24], &[3, 4, 0]], [&[22, 24], &[24, 6, 1]]),
        "REFUSED 14 0 1 2 24"
    );
    // The command of each with the reply of the other: in 3, and in 24.
    assert_eq!(
        same_target([&[0, 4, 3], &[24, 21]], [&[22, 24], &[3, 1]]),
        "REFUSED 14 0 1 2 3"
    );
    assert_eq!(
        same_target([&[21, 24], &[3, 4, 0]], [&[1, 3], &[24, 22]]),
        "REFUSED 14 0 1 2 3"
    );
}

#[test]
fn verdict_14_in_every_slot_of_the_entries() {
    let paths = [path(1, 4, &[21, 24]), path(2, 3, &[22, 23])];
    let replies = [reply(1, 4, &[3, 4, 0]), reply(2, 3, &[2, 4, 1])];
    let judged = |entries: &[Vec<u8>]| {
        let plain = two_ways(&with(&paths, entries));
        assert_eq!(verdict(&plain), "ACCEPTED 7 11 2 2");
        verdict(&[plain, replies.concat()].concat())
    };
    for slot in 0..64u8 {
        for span in [1, 2, 15, 16] {
            let first = entry(1, slot, span, &[4]);
            for distance in [0, span / 2, span - 1] {
                let other = (slot + distance) % 64;
                let entries = [first.clone(), entry(2, other, 1, &[3])];
                assert_eq!(judged(&entries), format!("REFUSED 14 {other} 1 2 4"));
            }
            for other in [(slot + span) % 64, (slot + 63) % 64] {
                let entries = [first.clone(), entry(2, other, 1, &[3])];
                assert_eq!(judged(&entries), "ACCEPTED 7 11 2 2");
            }
        }
    }
    // Slots 60 to 11 of one, 58 to 9 of the other.
    let entries = [entry(1, 60, 16, &[4]), entry(2, 58, 16, &[3])];
    assert_eq!(judged(&entries), "REFUSED 14 0 1 2 4");
}

#[test]
fn a_reply_that_no_entry_has_does_not_clash() {
    // 1 to 4 may come back over link 4, but only 1 to 3 stands beside 2 to 3 over link 4.
    let fields = [
        path(1, 3, &[21, 23]),
        path(1, 4, &[21, 24]),
        path(2, 3, &[1, 4, 2]),
        entry(1, 0, 1, &[3]),
        entry(2, 0, 1, &[3]),
    ];
    let back = [reply(1, 4, &[3, 4, 0])];
    let file = two_ways(&with(&fields, &back));
    assert_eq!(verdict(&file), "ACCEPTED 7 11 3 2");
    // It clashes as soon as an entry in that slot has its target.
    let mut entries = fields.to_vec();
    entries[3] = entry(1, 0, 1, &[3, 4]);
    assert_eq!(verdict(&two_ways(&entries)), "ACCEPTED 7 11 3 2");
    let file = two_ways(&with(&entries, &back));
    assert_eq!(verdict(&file), "REFUSED 14 0 1 2 4");
}

#[test]
fn the_replies_of_one_initiator_do_not_clash() {
    let fields = [
        path(1, 3, &[0, 2]),
        path(1, 4, &[0, 4, 3]),
        entry(1, 0, 2, &[3, 4]),
        entry(1, 2, 2, &[3]),
        reply(1, 3, &[23, 6, 4, 0]),
        reply(1, 4, &[24, 5, 0]),
    ];
    assert_eq!(verdict(&two_ways(&fields)), "ACCEPTED 7 11 2 2");
}

#[test]
fn verdict_13_before_a_clash_of_replies() {
    let fields = [
        path(1, 4, &[21, 24]),
        path(2, 3, &[22, 23]),
        entry(1, 0, 1, &[4]),
        entry(2, 0, 1, &[3]),
        entry(2, 40, 2, &[3]),
        reply(1, 4, &[3, 4, 0]),
        reply(2, 3, &[2, 4, 1]),
    ];
    let overlap = with(&fields, &[entry(2, 41, 1, &[3])]);
    assert_eq!(verdict(&two_ways(&overlap)), "REFUSED 13 2 40");
    assert_eq!(verdict(&two_ways(&fields)), "REFUSED 14 0 1 2 4");
}

/// Node 0 with one entry for node 1, so many routers on each way, and these times or none.
fn under(command: u8, back: u8, span: u8, times: &[Vec<u8>]) -> Driver {
    let fields = [
        path(0, 1, &way(command)),
        entry(0, 0, span, &[1]),
        reply(0, 1, &way_back(back)),
    ];
    Driver::new(&all_ways(&with(&fields, times)))
}

fn request(length: u16) -> Event {
    Event::Request {
        initiator: 0,
        target: 1,
        kind: 0,
        length,
    }
}

#[test]
fn each_way_has_its_own_routers() {
    let plan = |command, back, slot_length| {
        let times = times(100, [1, 20, 300, 4_000, slot_length]);
        under(command, back, 1, &[times])
    };
    // One router there and five back take 600 and 3,000; the command's header has 1 + 16 + 8 bytes,
    // the reply 5 + 8. With one data byte and its CRC and 4,321 for the latencies that is 11,921.
    // The other way round it is 3,000 and 600, 5 + 16 + 4 bytes and 1 + 8: 11,521.
    for (command, back, time) in [(1, 5, 11_921), (5, 1, 11_521)] {
        let mut driver = plan(command, back, time);
        driver.refuses(request(2), 0, Refusal::NotPermitted);
        assert_eq!(driver.step(request(1)), Answer::Taken { number: 0 });
        assert_eq!(driver.time_code(0, 0), [[5, 0, 1, 0, 0, 0, 0, 1]]);
        let mut driver = plan(command, back, time - 1);
        driver.refuses(request(1), 0, Refusal::NotPermitted);
        assert_eq!(driver.step(request(0)), Answer::Taken { number: 0 });
        assert_eq!(driver.time_code(0, 0), [[5, 0, 1, 0, 0, 0, 0, 0]]);
        // A byte and its CRC take 200: without them length 0 does not fit.
        let mut driver = plan(command, back, time - 101);
        driver.refuses(request(0), 0, Refusal::NotPermitted);
    }
}

#[test]
fn lengths_that_fit_by_one_nanosecond() {
    let mut met = 0;
    let four = [5_000, 600, 70, 0];
    for (command, back) in (0..8).flat_map(|command| (0..8).map(move |back| (command, back))) {
        for (rate, length, span) in [
            (2, 0, 1),
            (3, 1, 2),
            (7, 255, 16),
            (200, 256, 1),
            (200, 4_096, 3),
            (399, 257, 15),
            (400, 4_095, 1),
        ] {
            let routers = (command.into(), back.into());
            let time = time(routers, rate.into(), length.into(), four) as u32;
            let enough = time.div_ceil(span.into());
            let plan = |slot_length| {
                let times = times(rate, [5_000, 600, 70, 0, slot_length]);
                under(command, back, span, &[times])
            };
            assert_eq!(
                plan(enough).step(request(length)),
                Answer::Taken { number: 0 }
            );
            plan(enough - 1).refuses(request(length), 0, Refusal::NotPermitted);
            met += 1;
        }
    }
    assert_eq!(met, 64 * 7);
}

#[test]
fn without_times_256_bytes_a_slot_stay() {
    for span in 1..=16u8 {
        for (command, back) in [(0, 7), (7, 0), (3, 3)] {
            let most = 256 * u16::from(span);
            let mut driver = under(command, back, span, &[]);
            assert_eq!(driver.step(request(most)), Answer::Taken { number: 0 });
            if span < 16 {
                driver.refuses(request(most + 1), 0, Refusal::NotPermitted);
            }
        }
    }
}

/// Plan A's network with a way of its own for the reply from 3, and none for that from 4.
fn one_reply(times: &[Vec<u8>]) -> Vec<u8> {
    let fields = [
        path(1, 3, &[0, 2]),
        path(1, 4, &[21, 24]),
        entry(1, 0, 1, &[3, 4]),
        entry(1, 1, 2, &[3, 4]),
        reply(1, 3, &[2, 4, 6, 21]),
    ];
    two_ways(&with(&fields, times))
}

#[test]
fn starts_read_the_ways_of_each_target() {
    // With one router there, three back take 24,000 beside data and CRC, and one 22,700. So one slot
    // has room for 19 bytes from 3 and for 45 from 4, two for 519 and 545.
    let mut driver = Driver::new(&one_reply(&[usual_times(25_000)]));
    let asked = [(3, 20), (4, 46), (3, 519), (4, 545), (3, 19), (4, 45)];
    for (number, (target, length)) in (0..).zip(asked) {
        let answer = driver.request(1, target, 0, length);
        assert_eq!(answer, Answer::Taken { number });
    }
    for (target, length) in [(3, 520), (4, 546)] {
        let answer = driver.request(1, target, 0, length);
        assert_eq!(answer, Answer::Refused(Refusal::NotPermitted));
    }
    let mut order = Vec::new();
    for count in 0..5 * 64u32 {
        let records = driver.time_code((count % 64) as u8, 100 * count);
        let started = records.iter().filter(|record| record[0] == 5);
        order.extend(started.map(|record| (record[3], record[5])));
    }
    let expected = [(0, 4), (1, 0), (0, 5), (1, 1), (1, 2), (1, 3)];
    assert_eq!(order, expected);
}

#[test]
fn without_times_replies_change_no_event() {
    let mut fields = split(&one_reply(&[]));
    let mut with_reply = Driver::new(&fields.concat());
    fields.pop();
    let mut without = Driver::new(&fields.concat());
    let mut random = Random(0x1eaf);
    let mut started = 0;
    for count in 0..2_000u32 {
        let (target, length) = (random.pick(&[3, 4]), random.pick(&[0, 256, 257, 512, 513]));
        let answer = with_reply.request(1, target, 0, length);
        assert_eq!(answer, without.request(1, target, 0, length));
        let records = with_reply.time_code((count % 64) as u8, 100 * count);
        assert_eq!(records, without.time_code((count % 64) as u8, 100 * count));
        started += records.iter().filter(|record| record[0] == 5).count();
        let number = random.below(4) as u16;
        assert_eq!(with_reply.reply(1, number, 0), without.reply(1, number, 0));
    }
    assert!(started > 50, "{started}");
}

#[test]
fn written_out_behind_the_times() {
    let entries = [entry(1, 0, 1, &[3]), entry(2, 9, 1, &[4])];
    let in_order = [
        reply(1, 3, &[23, 6, 4, 0]),
        reply(1, 4, &[24, 21]),
        reply(2, 3, &[2, 4, 1]),
        reply(2, 4, &[3, 6, 22]),
    ];
    for times in [vec![], vec![usual_times(39_450)]] {
        let fields = with(&with(&paths(), &entries), &times);
        let plain = Driver::new(&two_ways(&fields)).written_out();
        // All in several orders, and the last one alone.
        for order in [
            &[0, 1, 2, 3][..],
            &[3, 2, 1, 0],
            &[2, 0, 3, 1],
            &[1, 3, 0, 2],
            &[3],
        ] {
            let replies: Vec<Vec<u8>> = order.iter().map(|&k| in_order[k].clone()).collect();
            let driver = Driver::new(&two_ways(&with(&fields, &replies)));
            let expected = in_order[4 - order.len()..].concat();
            let expected = [&plain[..], &expected].concat();
            assert_eq!(driver.written_out(), expected);
            assert_eq!(Driver::new(&expected).unit, driver.unit);
        }
    }
}

#[test]
fn written_out_with_128_replies() {
    let mut fields = eight_with_128_paths();
    fields.push(usual_times(39_450));
    let mut replies: Vec<Vec<u8>> = Vec::new();
    for initiator in 0..8 {
        for target in 8..24 {
            // Every third one goes back over the command's links.
            let over = if (initiator + target) % 3 == 0 { 0 } else { 32 };
            replies.push(reply(initiator, target, &[over + target, over + initiator]));
        }
    }
    let plan = ModelPlan::judge(&[fields.concat(), replies.concat()].concat()).unwrap();
    let expected = plan.written_out();
    let mut random = Random(0x0ff);
    for _ in 0..20 {
        random.shuffle(&mut replies);
        let file = [fields.concat(), replies.concat()].concat();
        let driver = Driver::new(&file);
        assert_eq!(driver.written_out(), expected);
        assert_eq!(driver.written_out().len(), file.len());
        assert_eq!(Driver::new(&expected).unit, driver.unit);
    }
}

#[test]
fn a_reply_over_the_command_s_links_is_kept() {
    // It changes nothing that events see, and is written out all the same.
    let [plain, _] = plans();
    let back = reply(2, 4, &[3, 1]);
    let driver = Driver::new(&[&plain[..], &back].concat());
    assert_ne!(driver.unit, Driver::new(&plain).unit);
    let expected = [Driver::new(&plain).written_out(), back].concat();
    assert_eq!(driver.written_out(), expected);
}

#[test]
fn another_load_or_a_clear_leaves_no_reply() {
    let replied = one_reply(&[usual_times(25_000)]);
    let plain = plan_a(&[entry(1, 0, 1, &[3])]);
    let mut driver = Driver::new(&replied);
    driver.unit.load(&plain, &mut driver.watchdog);
    assert_eq!(driver.unit, Driver::new(&plain).unit);
    driver.unit.load(&replied, &mut driver.watchdog);
    assert_eq!(driver.unit, Driver::new(&replied).unit);
    let mut cleared = driver.clone();
    cleared.unit.clear(&mut cleared.watchdog);
    assert_eq!(cleared.unit, Unit::new());
    // Refused at its last field, a reply.
    let refused = [&replied[..], &reply(1, 3, &[2, 0])].concat();
    let verdict = driver.unit.load(&refused, &mut driver.watchdog);
    assert_eq!(verdict.number(), 7);
    assert_eq!(driver.unit, Unit::new());
}
