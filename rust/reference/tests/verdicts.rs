//! Each verdict on either side of its line, and which one wins.

mod common;

use common::{
    device, entry, field, first_plan, intervals, least_network, least_plan, link, path, plan_a,
    plan_a_network, reply, row_network, row_plan, split, times, usual_times, verdict,
};

/// Devices 1 and 2 are nodes, 10 a router.
fn devices() -> Vec<u8> {
    [device(1, 0), device(2, 0), device(10, 1)].concat()
}

/// `devices` with links 0: 1-10 and 1: 10-2.
fn links() -> Vec<u8> {
    [devices(), link(0, 1, 10), link(1, 10, 2)].concat()
}

/// `links` with the path 1→2.
fn paths() -> Vec<u8> {
    [links(), path(1, 2, &[0, 1])].concat()
}

/// The verdict on this field after those before it, with intervals at the end.
fn after(before: &[u8], field: &[u8]) -> String {
    verdict(&[before, field, &intervals(90, 110)].concat())
}

/// The fields of this file, and if there is no entry among them those of `least_network`, each in the
/// place of its tag.
fn with_an_entry(file: &[u8]) -> Vec<u8> {
    let mut fields = split(file);
    if fields.iter().all(|field| field[0] != 4) {
        fields.extend(least_network());
        fields.sort_by_key(|field| field[0]);
    }
    fields.concat()
}

fn assert_accepted(before: &[u8], field: &[u8]) {
    let file = with_an_entry(&[before, field].concat());
    let printed = after(&file, &[]);
    assert!(printed.starts_with("ACCEPTED "), "{printed}: {field:?}");
}

/// The field after `before` gets this verdict, named by its own offset.
fn assert_fault(number: u8, before: &[u8], field: &[u8]) {
    let expected = format!("REFUSED {number} {}", before.len());
    assert_eq!(after(before, field), expected, "{field:?}");
}

#[test]
fn verdict_1_file_too_long() {
    let file = intervals(90, 110).repeat(1500);
    assert_eq!(verdict(&file[..16_384]), "REFUSED 4 11");
    assert_eq!(verdict(&file[..16_385]), "REFUSED 1 0");
    assert_eq!(verdict(&[0; 16_385]), "REFUSED 1 0");
}

#[test]
fn verdict_2_cut() {
    let file = first_plan();
    let fields = split(&file);
    let last = file.len() - fields.last().unwrap().len();
    for size in last + 1..file.len() {
        assert_eq!(verdict(&file[..size]), format!("REFUSED 2 {last}"));
    }
    assert_eq!(verdict(&file), "ACCEPTED 6 5 4 2");
    for rest in [&[9][..], &[5, 0], &[0, 0], &[1, 0, 1], &[9, 255, 255, 0]] {
        let cut = [&file, rest].concat();
        assert_eq!(verdict(&cut), format!("REFUSED 2 {}", file.len()));
    }
    let times = usual_times(39_450);
    for size in 1..times.len() {
        let cut = [&file, &times[..size]].concat();
        assert_eq!(verdict(&cut), format!("REFUSED 2 {}", file.len()));
    }
    assert_eq!(verdict(&[5]), "REFUSED 2 0");
    assert_eq!(verdict(&[7, 0, 1]), "REFUSED 2 0");
}

#[test]
fn verdict_3_unknown_tag() {
    for tag in [0, 8, 9, 255] {
        assert_fault(3, &[], &field(tag, &[]));
        assert_fault(3, &paths(), &field(tag, &[1, 2, 3]));
        let file = [first_plan(), field(tag, &[])].concat();
        assert_eq!(verdict(&file), format!("REFUSED 3 {}", first_plan().len()));
        let timed = [first_plan(), usual_times(0)].concat();
        let file = [&timed[..], &field(tag, &[])].concat();
        assert_eq!(verdict(&file), format!("REFUSED 3 {}", timed.len()));
    }
    // Tags 06 and 07 are spared: a length that they must not have, and one that they may.
    assert_eq!(verdict(&[6, 0, 0]), "REFUSED 5 0");
    assert_eq!(verdict(&usual_times(0)), "REFUSED 12 25");
    assert_eq!(verdict(&[7, 0, 0]), "REFUSED 5 0");
    assert_eq!(verdict(&reply(1, 2, &[0])), "REFUSED 8 0");
}

#[test]
fn verdict_4_tag_order() {
    let tags = [
        device(20, 0),
        link(20, 1, 2),
        path(2, 1, &[1, 0]),
        entry(1, 0, 1, &[2]),
    ];
    for (index, field) in tags.iter().enumerate() {
        assert_accepted(&paths(), &tags[2..].concat());
        for greater in &tags[index.max(2) + 1..] {
            assert_fault(4, &[paths(), greater.clone()].concat(), field);
        }
        for whole in [first_plan(), plan_a(&[])] {
            let late = [&whole[..], field].concat();
            assert_eq!(verdict(&late), format!("REFUSED 4 {}", whole.len()));
        }
    }
    for whole in [first_plan(), plan_a(&[])] {
        let second = [&whole[..], &field(5, &[])].concat();
        assert_eq!(verdict(&second), format!("REFUSED 4 {}", whole.len()));
    }
}

#[test]
fn verdict_4_times() {
    let timed = [first_plan(), usual_times(39_450)].concat();
    assert_eq!(verdict(&timed), "ACCEPTED 6 5 4 2");
    // A second one, whatever it holds, and every tag below.
    for late in [
        usual_times(39_450),
        field(6, &[]),
        field(6, &[0; 21]),
        field(6, &[0; 23]),
        times(1, [0; 5]),
        times(400, [1_000_001; 5]),
        intervals(90, 110),
        field(5, &[]),
        entry(1, 0, 1, &[3]),
        path(1, 3, &[0, 2]),
        link(9, 1, 2),
        device(9, 0),
    ] {
        let file = [&timed[..], &late].concat();
        let expected = format!("REFUSED 4 {}", timed.len());
        assert_eq!(verdict(&file), expected, "{late:?}");
    }
    // Before the intervals these come too late.
    assert_fault(4, &usual_times(39_450), &intervals(90, 110));
    let early = [plan_a_network().concat(), usual_times(39_450)].concat();
    assert_fault(4, &early, &intervals(90, 110));
    assert_fault(4, &early, &usual_times(39_450));
}

#[test]
fn verdict_5_length() {
    let zeros = [0; 300];
    let lengths: [(u8, std::ops::RangeInclusive<usize>); 7] = [
        (1, 2..=2),
        (2, 3..=3),
        (3, 3..=10),
        (4, 4..=19),
        (5, 8..=8),
        (6, 22..=22),
        (7, 3..=10),
    ];
    for (tag, allowed) in lengths {
        for length in (0..30).chain([256 + allowed.start(), 300]) {
            let file = field(tag, &zeros[..length]);
            let wrong_length = verdict(&file) == "REFUSED 5 0";
            assert_eq!(wrong_length, !allowed.contains(&length), "{tag} {length}");
        }
    }
}

#[test]
fn verdict_6_devices_and_links() {
    assert_accepted(&[], &device(63, 1));
    assert_fault(6, &[], &device(64, 1));
    assert_fault(6, &[], &device(255, 0));
    assert_fault(6, &[], &device(63, 2));

    let ends = [device(0, 0), device(63, 1)].concat();
    assert_accepted(&ends, &link(63, 63, 0));
    assert_fault(6, &ends, &link(64, 63, 0));
    assert_fault(6, &ends, &link(63, 64, 0));
    assert_fault(6, &ends, &link(63, 0, 64));
    assert_fault(6, &ends, &link(63, 63, 63));
    assert_fault(6, &ends, &link(128, 0, 63));
}

#[test]
fn verdict_6_paths() {
    let ends = [device(0, 0), device(63, 0), link(63, 0, 63)].concat();
    assert_accepted(&ends, &path(63, 0, &[63]));
    assert_accepted(&ends, &path(0, 63, &[63]));
    assert_fault(6, &ends, &path(64, 0, &[63]));
    assert_fault(6, &ends, &path(0, 64, &[63]));
    assert_fault(6, &ends, &path(0, 63, &[64]));
    assert_fault(6, &ends, &path(0, 0, &[63]));
    for index in 0..8 {
        let mut links = [63; 8];
        links[index] = 127;
        assert_fault(6, &ends, &path(0, 63, &links));
    }
}

#[test]
fn verdict_6_entries() {
    let ends = [
        device(0, 0),
        device(63, 0),
        link(63, 0, 63),
        path(0, 63, &[63]),
    ]
    .concat();
    assert_accepted(&ends, &entry(0, 63, 16, &[63]));
    assert_accepted(&ends, &entry(0, 63, 1, &[63]));
    assert_fault(6, &ends, &entry(64, 63, 1, &[63]));
    assert_fault(6, &ends, &entry(0, 64, 1, &[63]));
    assert_fault(6, &ends, &entry(0, 63, 0, &[63]));
    assert_fault(6, &ends, &entry(0, 63, 17, &[63]));
    assert_fault(6, &ends, &entry(0, 63, 255, &[63]));
    assert_fault(6, &ends, &entry(0, 63, 1, &[64]));
    for count in 1..=16 {
        for index in 0..count {
            let mut targets: Vec<u8> = (20..20 + count).collect();
            targets[usize::from(index)] = 64 + index;
            assert_fault(6, &ends, &entry(0, 63, 1, &targets));
        }
    }
}

#[test]
fn verdict_6_intervals() {
    let top = 2_147_483_647;
    for (least, greatest) in [(0, 1), (1, 1), (0, top), (top, top)] {
        assert_eq!(verdict(&least_plan(least, greatest)), "ACCEPTED 2 1 1 1");
        assert_eq!(verdict(&intervals(least, greatest)), "REFUSED 15 11");
    }
    let place = least_network().concat().len();
    for (least, greatest) in [
        (0, 0),
        (2, 1),
        (top, top - 1),
        (0, top + 1),
        (top + 1, top + 1),
        (0, u32::MAX),
        (u32::MAX, top),
    ] {
        let printed = verdict(&least_plan(least, greatest));
        assert_eq!(printed, format!("REFUSED 6 {place}"));
        assert_eq!(verdict(&intervals(least, greatest)), "REFUSED 6 0");
    }
}

/// The verdict on the first plan with these times.
fn first_plan_with(rate: u16, nanoseconds: [u32; 5]) -> String {
    verdict(&[first_plan(), times(rate, nanoseconds)].concat())
}

#[test]
fn verdict_6_times() {
    let accepted = "ACCEPTED 6 5 4 2";
    let refused = &format!("REFUSED 6 {}", first_plan().len());
    for (rate, expected) in [
        (0, &refused[..]),
        (1, refused),
        (2, accepted),
        (3, accepted),
        (399, accepted),
        (400, accepted),
        (401, refused),
        (256 + 200, refused),
        (u16::MAX, refused),
    ] {
        assert_eq!(first_plan_with(rate, [5_000; 5]), expected, "{rate}");
        assert_eq!(first_plan_with(rate, [0; 5]), expected, "{rate}");
        assert_eq!(first_plan_with(rate, [1_000_000; 5]), expected, "{rate}");
    }
    for place in 0..5 {
        for (time, expected) in [
            (0, accepted),
            (1, accepted),
            (999_999, accepted),
            (1_000_000, accepted),
            (1_000_001, refused),
            (0x0100_0000, refused),
            (u32::MAX, refused),
        ] {
            for others in [0, 5_000, 1_000_000] {
                let mut nanoseconds = [others; 5];
                nanoseconds[place] = time;
                let printed = first_plan_with(200, nanoseconds);
                assert_eq!(printed, expected, "{place}: {time} among {others}");
            }
        }
    }
}

#[test]
fn verdict_6_times_after_5_before_12() {
    // The length is asked first, and a range before the intervals that are missing.
    for length in [21, 23] {
        assert_eq!(verdict(&field(6, &vec![255; length])), "REFUSED 5 0");
    }
    assert_eq!(verdict(&field(6, &[255; 22])), "REFUSED 6 0");
}

#[test]
fn times_spare_no_later_verdict() {
    let overlap = [entry(1, 0, 2, &[3]), entry(1, 1, 1, &[3])];
    let clash = [entry(1, 0, 2, &[3]), entry(2, 1, 1, &[3])];
    for slot_length in [0, 39_450, 1_000_000] {
        let timed = |entries| verdict(&[plan_a(entries), usual_times(slot_length)].concat());
        assert_eq!(timed(&overlap), "REFUSED 13 1 0");
        // A target that no length fits counts in a clash all the same.
        assert_eq!(timed(&clash), "REFUSED 14 1 1 2 2");
        assert_eq!(timed(&clash[..1]), "ACCEPTED 6 5 4 1");
        assert_eq!(timed(&[]), "REFUSED 15 126");
        let all: Vec<u8> = (1..9).collect();
        let file = row_plan(&[entry(0, 0, 1, &all)], &usual_times(slot_length));
        assert_eq!(verdict(&file), "ACCEPTED 16 15 8 1");
    }
}

#[test]
fn verdict_7_given_before() {
    assert_accepted(&devices(), &device(3, 0));
    assert_fault(7, &devices(), &device(2, 1));
    assert_accepted(&links(), &link(2, 1, 10));
    assert_fault(7, &links(), &link(1, 1, 2));
    assert_accepted(&paths(), &path(2, 1, &[1, 0]));
    assert_fault(7, &paths(), &path(1, 2, &[0, 1]));
    let entries = [paths(), entry(1, 5, 1, &[2])].concat();
    assert_accepted(&entries, &entry(1, 6, 1, &[2]));
    assert_fault(7, &entries, &entry(1, 5, 2, &[2]));
    let two = [plan_a_network().concat(), entry(1, 0, 1, &[3])].concat();
    assert_accepted(&two, &entry(2, 0, 1, &[4]));
    assert_accepted(&two, &entry(1, 1, 1, &[4, 3]));
    assert_fault(7, &two, &entry(1, 1, 1, &[3, 3]));
    assert_fault(7, &two, &entry(1, 1, 1, &[3, 4, 3]));
}

#[test]
fn verdict_7_any_two_targets() {
    for count in 2..=16u8 {
        for one in 0..count {
            for other in one + 1..count {
                let mut targets: Vec<u8> = (48..48 + count).collect();
                assert_fault(8, &paths(), &entry(1, 0, 1, &targets));
                targets[usize::from(other)] = targets[usize::from(one)];
                assert_fault(7, &paths(), &entry(1, 0, 1, &targets));
            }
        }
    }
    assert_fault(7, &paths(), &entry(1, 0, 1, &[63, 63, 63]));
}

#[test]
fn verdict_8_not_given() {
    assert_accepted(&devices(), &link(0, 1, 2));
    assert_fault(8, &devices(), &link(0, 1, 3));
    assert_fault(8, &devices(), &link(0, 3, 1));

    assert_accepted(&links(), &path(1, 2, &[0, 1]));
    assert_fault(8, &links(), &path(3, 2, &[0, 1]));
    assert_fault(8, &links(), &path(1, 3, &[0, 1]));
    assert_fault(8, &links(), &path(1, 2, &[0, 2]));
    assert_fault(8, &links(), &path(10, 2, &[1]));
    assert_fault(8, &links(), &path(1, 10, &[0]));

    assert_accepted(&paths(), &entry(1, 0, 1, &[2]));
    assert_fault(8, &paths(), &entry(3, 0, 1, &[2]));
    assert_fault(8, &paths(), &entry(10, 0, 1, &[2]));
    assert_fault(8, &paths(), &entry(1, 0, 1, &[3]));
    assert_fault(8, &paths(), &entry(1, 0, 1, &[2, 10]));
}

/// Node 0 joined to nodes 1 to 20, and node 21 joined to the same.
fn star() -> Vec<u8> {
    let mut file: Vec<u8> = (0..22).flat_map(|number| device(number, 0)).collect();
    for node in 1..=20 {
        file.extend(link(node, 0, node));
        file.extend(link(20 + node, 21, node));
    }
    file
}

#[test]
fn verdict_9_ninth_initiator() {
    let mut file = star();
    for initiator in [8, 3, 5, 1, 20, 7, 2] {
        file.extend(path(initiator, 0, &[initiator]));
    }
    // The path of `least_network` would make an initiator more.
    let entry = entry(20, 0, 1, &[0]);
    let accepted = |file: &[u8], path| after(file, &[path, entry.clone()].concat());
    assert_eq!(accepted(&file, path(4, 0, &[4])), "ACCEPTED 22 40 8 1");
    file.extend(path(4, 0, &[4]));
    assert_eq!(accepted(&file, path(4, 21, &[24])), "ACCEPTED 22 40 9 1");
    assert_fault(9, &file, &path(6, 0, &[6]));
    assert_fault(9, &file, &path(6, 0, &[7]));
    assert_fault(8, &file, &path(6, 0, &[60]));
}

#[test]
fn verdict_9_129th_path() {
    // Nodes 0 to 7 and 8 to 31 around one router.
    let mut file: Vec<u8> = (0..32).flat_map(|number| device(number, 0)).collect();
    file.extend(device(63, 1));
    file.extend((0..32).flat_map(|number| link(number, number, 63)));
    for initiator in 0..8 {
        for target in 8..23 {
            file.extend(path(initiator, target, &[initiator, target]));
        }
    }
    for initiator in 0..7 {
        file.extend(path(initiator, 24, &[initiator, 24]));
    }
    let entry = entry(3, 0, 1, &[24]);
    assert_eq!(after(&file, &entry), "ACCEPTED 33 32 127 1");
    file.extend(path(7, 24, &[7, 24]));
    assert_eq!(after(&file, &entry), "ACCEPTED 33 32 128 1");
    assert_fault(9, &file, &path(7, 25, &[7, 25]));
    assert_fault(9, &file, &path(7, 25, &[7]));
    assert_fault(9, &file, &path(30, 25, &[30, 25]));
    assert_fault(7, &file, &path(7, 24, &[7, 24]));
}

/// Nodes 1, 2 and 3; routers 10 to 17 in a row, links 10 to 16 between them; 1 and 3 at router 10
/// with links 1 and 3, 2 at router 16 with link 2 and at router 17 with link 4; link 5 joins 1 and 2
/// and link 6 joins 10 and 12.
fn row() -> Vec<u8> {
    let mut file = [device(1, 0), device(2, 0), device(3, 0)].concat();
    file.extend((10..18).flat_map(|number| device(number, 1)));
    file.extend([link(1, 10, 1), link(2, 2, 16), link(3, 3, 10)].concat());
    file.extend([link(4, 2, 17), link(5, 1, 2), link(6, 10, 12)].concat());
    file.extend((10..17).flat_map(|number| link(number, number, number + 1)));
    file
}

#[test]
fn verdict_10_walks() {
    let row = row();
    for links in [
        &[5][..],
        &[1, 10, 11, 12, 13, 14, 15, 2],
        &[1, 6, 12, 13, 14, 15, 2],
        &[1, 6, 12, 13, 14, 15, 16, 4],
    ] {
        assert_accepted(&row, &path(1, 2, links));
    }
    for links in [
        // The first link does not touch the initiator.
        &[3, 6, 12, 13, 14, 15, 2][..],
        // A link does not lead on.
        &[1, 11, 12, 13, 14, 15, 2],
        // The last one does not reach the target.
        &[1],
        &[1, 10, 11, 12, 13, 14, 15, 16],
        // Going on from the target.
        &[5, 2],
        &[5, 4, 16, 2],
        // A device met twice.
        &[5, 5],
        &[5, 5, 5],
        &[1, 1, 5],
        &[1, 10, 11, 6],
        &[1, 10, 10, 6, 12, 13, 14, 2],
    ] {
        assert_fault(10, &row, &path(1, 2, links));
    }
    // Node 2 stands between.
    assert_accepted(&row, &path(1, 3, &[1, 3]));
    assert_fault(10, &row, &path(1, 3, &[5, 2, 15, 14, 13, 12, 6, 3]));
}

#[test]
fn verdict_11_no_path() {
    let network = plan_a_network().concat();
    assert_accepted(&network, &entry(1, 0, 1, &[3, 4]));
    assert_fault(11, &network, &entry(1, 0, 1, &[3, 2]));
    assert_fault(11, &network, &entry(1, 0, 1, &[1]));
    // A node that is no initiator.
    assert_fault(11, &network, &entry(3, 0, 1, &[1]));
    assert_fault(11, &links(), &entry(1, 0, 1, &[2]));
}

#[test]
fn verdict_12_no_intervals() {
    assert_eq!(verdict(&[]), "REFUSED 12 0");
    let file = first_plan();
    let size = file.len() - 11;
    assert_eq!(verdict(&file[..size]), format!("REFUSED 12 {size}"));
    let overlap = [entry(1, 0, 2, &[3]), entry(1, 1, 1, &[3])];
    let file = plan_a(&overlap);
    let size = file.len() - 11;
    assert_eq!(verdict(&file[..size]), format!("REFUSED 12 {size}"));
    // Times do not stand in for them.
    let timed = [&file[..size], &usual_times(39_450)].concat();
    assert_eq!(verdict(&timed), format!("REFUSED 12 {}", size + 25));
    assert_eq!(verdict(&usual_times(39_450)), "REFUSED 12 25");
}

#[test]
fn verdict_15_no_entry() {
    let network = plan_a_network().concat();
    for fields in [vec![], devices(), links(), paths(), network, row_network()] {
        let plain = [fields, intervals(90, 110)].concat();
        assert_eq!(verdict(&plain), format!("REFUSED 15 {}", plain.len()));
        for slot_length in [0, 39_450, 1_000_000] {
            let timed = [&plain[..], &usual_times(slot_length)].concat();
            assert_eq!(verdict(&timed), format!("REFUSED 15 {}", timed.len()));
        }
    }
}

#[test]
fn verdict_15_after_12() {
    for fields in [vec![], paths(), plan_a_network().concat()] {
        for times in [vec![], usual_times(39_450)] {
            let neither = [&fields[..], &times].concat();
            assert_eq!(verdict(&neither), format!("REFUSED 12 {}", neither.len()));
            let five = intervals(90, 110);
            let no_entry = [&fields[..], &five, &times].concat();
            assert_eq!(verdict(&no_entry), format!("REFUSED 15 {}", no_entry.len()));
        }
    }
}

#[test]
fn verdict_15_after_the_fields() {
    let whole = plan_a(&[]);
    for (number, late) in [
        (2, vec![4]),
        (2, vec![4, 0, 4, 1, 0, 1]),
        (3, field(8, &[])),
        (4, intervals(90, 110)),
        (4, entry(1, 0, 1, &[3])),
        (5, field(6, &[])),
        (6, usual_times(1_000_001)),
        (5, field(7, &[])),
        (10, reply(1, 3, &[0, 2])),
        (11, reply(3, 1, &[0, 2])),
    ] {
        let file = [&whole[..], &late].concat();
        let expected = format!("REFUSED {number} {}", whole.len());
        assert_eq!(verdict(&file), expected, "{late:?}");
    }
    // An entry at fault is named itself.
    assert_fault(11, &plan_a_network().concat(), &entry(1, 0, 1, &[2]));
}

#[test]
fn one_entry_is_enough() {
    let mut network = star();
    let initiators = [8, 3, 5, 1, 20, 7, 2, 4];
    for initiator in initiators {
        network.extend(path(initiator, 0, &[initiator]));
    }
    let size = network.len() + 11;
    assert_eq!(after(&network, &[]), format!("REFUSED 15 {size}"));
    for initiator in initiators {
        for slot in 0..64 {
            for span in [1, 16] {
                let entry = entry(initiator, slot, span, &[0]);
                assert_eq!(after(&network, &entry), "ACCEPTED 22 40 8 1");
            }
        }
    }
}

#[test]
fn an_entry_that_permits_nothing_is_one() {
    let all: Vec<u8> = (1..9).collect();
    for slot_length in [0, 1, 1_000] {
        let times = usual_times(slot_length);
        let file = row_plan(&[entry(0, 63, 16, &all)], &times);
        assert_eq!(verdict(&file), "ACCEPTED 16 15 8 1");
        let file = row_plan(&[], &times);
        assert_eq!(verdict(&file), format!("REFUSED 15 {}", file.len()));
    }
}

#[test]
fn verdict_13_overlap() {
    for slot in 0..64 {
        for span in 1..=16 {
            let next = |distance: u8| entry(1, (slot + distance) % 64, 1, &[3]);
            let touching = plan_a(&[entry(1, slot, span, &[4]), next(span)]);
            assert_eq!(verdict(&touching), "ACCEPTED 6 5 4 2");
            for distance in 1..span {
                let covering = plan_a(&[next(distance), entry(1, slot, span, &[4])]);
                assert_eq!(verdict(&covering), format!("REFUSED 13 1 {slot}"));
            }
        }
    }
}

#[test]
fn verdict_13_place() {
    let entries = [
        entry(2, 0, 2, &[4]),
        entry(2, 1, 1, &[4]),
        entry(1, 62, 3, &[3]),
        entry(1, 0, 1, &[3]),
        entry(1, 30, 3, &[3]),
        entry(1, 32, 1, &[3]),
    ];
    assert_eq!(verdict(&plan_a(&entries)), "REFUSED 13 1 30");
    assert_eq!(verdict(&plan_a(&entries[..4])), "REFUSED 13 1 62");
    assert_eq!(verdict(&plan_a(&entries[..3])), "REFUSED 13 2 0");
    // Two initiators may stand in one slot; 13 comes before 14.
    let entries = [
        entry(1, 0, 4, &[4]),
        entry(2, 1, 1, &[4]),
        entry(2, 40, 2, &[4]),
        entry(2, 41, 1, &[4]),
    ];
    assert_eq!(verdict(&plan_a(&entries)), "REFUSED 13 2 40");
    assert_eq!(verdict(&plan_a(&entries[..2])), "REFUSED 14 1 1 2 3");
}

#[test]
fn verdict_14_every_slot_and_span() {
    for slot in 0..64u8 {
        for span in 1..=16u8 {
            let first = entry(1, slot, span, &[3]);
            for distance in [0, span / 2, span - 1] {
                let other = (slot + distance) % 64;
                let file = plan_a(&[first.clone(), entry(2, other, 1, &[3])]);
                assert_eq!(verdict(&file), format!("REFUSED 14 {other} 1 2 2"));
                let file = plan_a(&[first.clone(), entry(2, other, 1, &[4])]);
                assert_eq!(verdict(&file), "ACCEPTED 6 5 4 2");
            }
            for other in [(slot + span) % 64, (slot + 63) % 64] {
                let file = plan_a(&[first.clone(), entry(2, other, 1, &[3])]);
                assert_eq!(verdict(&file), "ACCEPTED 6 5 4 2");
            }
        }
    }
}

#[test]
fn verdict_14_spans_round_the_end() {
    // Slots 60 to 63 and 0 to 11 of one, 4 to 13 of the other: the least is 4.
    let file = plan_a(&[entry(1, 60, 16, &[3]), entry(2, 4, 10, &[3])]);
    assert_eq!(verdict(&file), "REFUSED 14 4 1 2 2");
    let file = plan_a(&[entry(1, 60, 16, &[3]), entry(2, 58, 16, &[3])]);
    assert_eq!(verdict(&file), "REFUSED 14 0 1 2 2");
    let file = plan_a(&[entry(1, 60, 4, &[3]), entry(2, 58, 16, &[3])]);
    assert_eq!(verdict(&file), "REFUSED 14 60 1 2 2");
}

#[test]
fn verdict_14_place() {
    // Nodes 1 to 4 and targets 21 to 24 around router 10; link numbers fall as nodes rise.
    let mut network = Vec::new();
    for number in [1, 2, 3, 4, 21, 22, 23, 24] {
        network.extend(device(number, 0));
    }
    network.extend(device(10, 1));
    for number in [1, 2, 3, 4, 21, 22, 23, 24] {
        network.extend(link(50 - number, 10, number));
    }
    for initiator in [4, 2, 3, 1] {
        for target in [24, 21, 22, 23] {
            network.extend(path(initiator, target, &[50 - initiator, 50 - target]));
        }
    }
    let clash = |entries: &[Vec<u8>]| after(&network, &entries.concat());
    let common = [
        entry(4, 7, 1, &[21, 22, 23]),
        entry(3, 7, 1, &[23, 21]),
        entry(2, 9, 1, &[24]),
        entry(1, 9, 1, &[24]),
    ];
    assert_eq!(clash(&common), "REFUSED 14 7 3 4 27");
    assert_eq!(clash(&common[1..]), "REFUSED 14 9 1 2 26");
    let three = [
        entry(4, 7, 1, &[21]),
        entry(3, 7, 1, &[22, 21]),
        entry(1, 7, 1, &[22]),
    ];
    assert_eq!(clash(&three), "REFUSED 14 7 1 3 28");
    let three = [
        entry(4, 7, 1, &[21, 22]),
        entry(3, 7, 1, &[22]),
        entry(1, 7, 1, &[21]),
    ];
    assert_eq!(clash(&three), "REFUSED 14 7 1 4 29");
    let apart = [
        entry(4, 7, 1, &[21]),
        entry(3, 7, 1, &[22]),
        entry(2, 7, 1, &[23]),
        entry(1, 7, 1, &[24]),
    ];
    assert_eq!(clash(&apart), "ACCEPTED 9 8 16 4");
}

#[test]
fn the_smaller_number_wins_in_one_field() {
    // 2 before 3, 3 before 5, 4 before 5.
    assert_eq!(verdict(&[9, 0, 1]), "REFUSED 2 0");
    assert_fault(3, &devices(), &field(0, &[1]));
    assert_fault(4, &links(), &field(1, &[]));
    // 5 before 6 to 11.
    assert_fault(5, &links(), &path(64, 64, &[]));
    assert_fault(5, &paths(), &entry(64, 64, 0, &[]));
    // 6 before 7.
    assert_fault(6, &devices(), &device(1, 2));
    assert_fault(6, &links(), &link(1, 2, 2));
    assert_fault(6, &paths(), &path(1, 2, &[0, 64]));
    assert_fault(6, &paths(), &entry(1, 0, 17, &[2, 2]));
    // 7 before 8.
    assert_fault(7, &links(), &link(1, 3, 4));
    assert_fault(7, &paths(), &path(1, 2, &[60]));
    assert_fault(7, &paths(), &entry(10, 0, 1, &[3, 3]));
    let entries = [paths(), entry(1, 5, 1, &[2])].concat();
    assert_fault(7, &entries, &entry(1, 5, 1, &[10]));
    // 8 before 10 and 11.
    assert_fault(8, &links(), &path(1, 2, &[1, 0, 60]));
    assert_fault(8, &links(), &path(1, 10, &[1]));
    assert_fault(8, &paths(), &entry(1, 0, 1, &[1, 3]));
    assert_fault(8, &paths(), &entry(10, 0, 1, &[1]));
}

#[test]
fn the_first_field_at_fault_is_named() {
    let file = [devices(), device(64, 0), field(9, &[])].concat();
    assert_eq!(verdict(&file), format!("REFUSED 6 {}", devices().len()));
    let overlap = [entry(1, 0, 2, &[3]), entry(1, 1, 1, &[3])];
    let late = [plan_a(&overlap), vec![1]].concat();
    assert_eq!(verdict(&late), format!("REFUSED 2 {}", late.len() - 1));
}
