//! Plans whose replies come home another way: what field 07 may say, the links that a transaction uses then, and the lengths.

mod common;

use common::{field, smallest, times, under, INTERVALS};
use spwd::{records, Counts, Plan, Record, Refusal, Spwd, Verdict};
use spwd::{PATHS_MOST, READ, RECORDS_ROOM, WRITE, WRITTEN_MOST};

/// Initiators 1 and 2 on router 10, targets 3 and 4 on router 11; links 4, 5 and 7 between the routers; a second port of 1 on router 11.
/// The path of 1 to 3 goes over link 4, that of 2 to 4 over link 5, and both may start in slot 0.
fn ring() -> Vec<u8> {
    ring_of(&[&[1, 3, 0, 4, 2], &[2, 4, 1, 5, 3]])
}

/// The same network and entries with these paths.
fn ring_of(paths: &[&[u8]]) -> Vec<u8> {
    let mut fields = Vec::new();
    for (device, kind) in [(1, 0), (2, 0), (3, 0), (4, 0), (10, 1), (11, 1)] {
        fields.push(field(1, &[device, kind]));
    }
    for link in [
        [0, 1, 10],
        [1, 2, 10],
        [2, 3, 11],
        [3, 4, 11],
        [4, 10, 11],
        [5, 10, 11],
        [6, 1, 11],
        [7, 10, 11],
    ] {
        fields.push(field(2, &link));
    }
    fields.extend(paths.iter().map(|path| field(3, path)));
    for entry in [[1, 0, 1, 3], [2, 0, 1, 4]] {
        fields.push(field(4, &entry));
    }
    fields.push(INTERVALS.to_vec());
    fields.concat()
}

/// A plan with these replies behind it.
fn with(plan: &[u8], replies: &[&[u8]]) -> Vec<u8> {
    let replies: Vec<_> = replies.iter().map(|reply| field(7, reply)).collect();
    [plan, &replies.concat()].concat()
}

#[track_caller]
fn prints(file: &[u8], line: &str) {
    assert_eq!(Verdict::from(Spwd::new().load(file)).to_string(), line);
}

/// The verdict on the ring with these replies; its own bytes are 119.
#[track_caller]
fn ring_prints(replies: &[&[u8]], line: &str) {
    prints(&with(&ring(), replies), line);
}

const ACCEPTED: &str = "ACCEPTED 6 8 2 2";

/// Over links of its own, over the command's links, over a router that the command meets too, over one link; replies are not counted.
#[test]
fn accepted() {
    assert_eq!(ring().len(), 119);
    let several: [&[&[u8]]; 6] = [
        &[],
        &[&[1, 3, 2, 6]],
        &[&[1, 3, 2, 4, 0]],
        &[&[1, 3, 2, 7, 0]],
        &[&[1, 3, 2, 7, 0], &[2, 4, 3, 5, 1]],
        &[&[2, 4, 3, 5, 1], &[1, 3, 2, 6]],
    ];
    for replies in several {
        ring_prints(replies, ACCEPTED);
    }
    prints(&with(&smallest(), &[&[1, 2, 0]]), "ACCEPTED 2 1 1 1");
}

/// The way of a command against that of a reply, of a reply against a reply; and a reply on its own way frees no link of its command.
#[test]
fn clashes() {
    ring_prints(&[&[1, 3, 2, 5, 0]], "REFUSED 14 0 1 2 5");
    ring_prints(&[&[2, 4, 3, 4, 1]], "REFUSED 14 0 1 2 4");
    let both: &[&[u8]] = &[&[1, 3, 2, 5, 0], &[2, 4, 3, 4, 1]];
    ring_prints(both, "REFUSED 14 0 1 2 4");
    let home: &[&[u8]] = &[&[1, 3, 2, 7, 0], &[2, 4, 3, 7, 1]];
    ring_prints(home, "REFUSED 14 0 1 2 7");
    let shared = ring_of(&[&[1, 3, 0, 4, 2], &[2, 4, 1, 4, 3]]);
    prints(&shared, "REFUSED 14 0 1 2 4");
    prints(&with(&shared, &[&[1, 3, 2, 6]]), "REFUSED 14 0 1 2 4");
    // Only pairs of entries that cover the slot count: nobody may start to these targets.
    let more: &[&[u8]] = &[
        &[1, 3, 0, 4, 2],
        &[1, 4, 0, 7, 3],
        &[2, 3, 1, 7, 2],
        &[2, 4, 1, 5, 3],
    ];
    let unused: &[&[u8]] = &[&[1, 4, 3, 5, 0], &[2, 3, 2, 4, 1]];
    prints(&with(&ring_of(more), unused), "ACCEPTED 6 8 4 2");
}

#[test]
fn lengths_of_the_field() {
    for length in [0, 1, 2, 11, 12, 255] {
        ring_prints(&[&vec![1; length]], "REFUSED 5 119");
    }
    let whole = with(&ring(), &[&[1, 3, 2, 4, 0]]);
    for cut in ring().len() + 1..whole.len() {
        prints(&whole[..cut], "REFUSED 2 119");
    }
    prints(
        &[&ring()[..], &field(8, &[1, 3, 2])].concat(),
        "REFUSED 3 119",
    );
}

/// Behind entries, intervals and times; none of these behind it.
#[test]
fn place_of_the_field() {
    let slots = times(200, [0, 0, 0, 0, 50_000]);
    let reply = field(7, &[1, 3, 2, 6]);
    prints(&[&ring()[..], &slots, &reply].concat(), ACCEPTED);
    prints(&[&ring()[..], &reply, &slots].concat(), "REFUSED 4 126");
    prints(&[&ring()[..], &reply, &INTERVALS].concat(), "REFUSED 4 126");
    prints(&[&reply, &ring()[..]].concat(), "REFUSED 8 0");
    prints(&ring()[..108], "REFUSED 12 108");
    prints(&[&ring()[..108], &reply].concat(), "REFUSED 12 115");
}

#[test]
fn numbers() {
    for reply in [
        [64, 3, 2, 6],
        [255, 3, 2, 6],
        [1, 64, 2, 6],
        [1, 3, 64, 6],
        [1, 3, 2, 64],
        [1, 1, 2, 6],
        [3, 3, 2, 6],
    ] {
        ring_prints(&[&reply], "REFUSED 6 119");
    }
}

/// A second reply of the pair, whatever its links; the pair the other way round is another one.
#[test]
fn given_before() {
    let first: &[u8] = &[1, 3, 2, 6];
    for second in [first, &[1, 3, 2, 4, 0], &[1, 3, 2], &[1, 3, 9]] {
        ring_prints(&[first, second], "REFUSED 7 126");
    }
    ring_prints(&[first, &[3, 1, 6, 2]], "REFUSED 11 126");
}

#[test]
fn not_given() {
    for reply in [
        [5, 3, 2, 6],
        [1, 5, 2, 6],
        [1, 3, 2, 8],
        [1, 3, 9, 6],
        [10, 3, 2, 4],
        [1, 11, 4, 0],
    ] {
        ring_prints(&[&reply], "REFUSED 8 119");
    }
}

/// From the target to the initiator, over routers, no device twice.
#[test]
fn walks() {
    for reply in [
        &[1, 3, 0, 4, 2][..],
        &[1, 3, 6, 2],
        &[1, 3, 2],
        &[1, 3, 2, 4],
        &[1, 3, 2, 4, 1],
        &[1, 3, 2, 4, 5, 6],
        &[1, 3, 2, 3, 3, 6],
        &[1, 3, 2, 2],
        // 10 before 11: there is no path of 2 to 3 either.
        &[2, 3, 2, 6],
    ] {
        ring_prints(&[reply], "REFUSED 10 119");
    }
}

#[test]
fn without_its_path() {
    ring_prints(&[&[1, 4, 3, 6]], "REFUSED 11 119");
    ring_prints(&[&[2, 3, 2, 4, 1]], "REFUSED 11 119");
    ring_prints(&[&[3, 1, 0, 4, 2]], "REFUSED 11 119");
    // A good one before it.
    ring_prints(&[&[1, 3, 2, 6], &[1, 4, 3, 6]], "REFUSED 11 126");
}

/// The target of a reply is no initiator.
#[test]
fn makes_no_initiator() {
    let mut spwd = under(&with(&ring(), &[&[1, 3, 2, 6]]));
    for target in [1, 2] {
        let answer = spwd.request(3, target, READ, 0);
        assert_eq!(answer, Err(Refusal::NO_INITIATOR));
    }
    assert_eq!(spwd.request(1, 3, READ, 0), Ok(0));
}

/// In order of initiator and target behind the times, whatever the order of the file; and it is the same plan.
#[test]
fn written_out_and_read_back() {
    let slots = times(200, [5_000, 5_000, 5_000, 5_000, 40_000]);
    let more: &[&[u8]] = &[
        &[1, 3, 0, 4, 2],
        &[1, 4, 0, 4, 3],
        &[2, 3, 1, 5, 2],
        &[2, 4, 1, 5, 3],
    ];
    let plan = [ring_of(more), slots].concat();
    let replies: [&[u8]; 3] = [&[1, 3, 2, 6], &[1, 4, 3, 4, 0], &[2, 4, 3, 5, 1]];
    let file = with(&plan, &replies);
    let [a, b, c] = replies;
    for replies in [[a, b, c], [c, b, a], [b, c, a], [c, a, b]] {
        let given = with(&plan, &replies);
        let spwd = under(&given);
        for room in [file.len(), WRITTEN_MOST] {
            let mut out = vec![0xa5; room];
            assert_eq!(spwd.write_out(&mut out), Ok(file.len()));
            assert_eq!(out[..file.len()], file);
            assert!(out[file.len()..].iter().all(|&byte| byte == 0xa5));
        }
        assert!(spwd.holds(&file, &mut Plan::new()));
        assert_eq!(spwd, under(&file));
    }
    let mut out = vec![0xa5; file.len() - 1];
    assert_eq!(under(&file).write_out(&mut out), Err(Refusal::SMALL_ROOM));
    assert_eq!(out, vec![0xa5; file.len() - 1]);
}

/// Plans that differ in a link of a reply, or in having one, are different plans; also where it has the links of its command.
#[test]
fn replies_are_part_of_the_plan() {
    let spwd = under(&with(&ring(), &[&[1, 3, 2, 6]]));
    for other in [
        ring(),
        with(&ring(), &[&[1, 3, 2, 4, 0]]),
        with(&ring(), &[&[1, 3, 2, 6], &[2, 4, 3, 5, 1]]),
        with(&ring(), &[&[2, 4, 3, 5, 1]]),
    ] {
        assert!(!spwd.holds(&other, &mut Plan::new()));
        assert!(!under(&other).holds(&with(&ring(), &[&[1, 3, 2, 6]]), &mut Plan::new()));
        assert_ne!(under(&other).plan(), spwd.plan());
    }
}

/// A load without replies behind one with them has the old rule again; a clear and a refused load leave none.
#[test]
fn no_reply_is_kept() {
    let replied = with(&ring(), &[&[1, 3, 2, 6], &[2, 4, 3, 5, 1]]);
    let mut spwd = under(&replied);
    spwd.load(&ring()).unwrap();
    assert_eq!(spwd, under(&ring()));
    spwd.load(&replied).unwrap();
    spwd.clear();
    assert_eq!(spwd, Spwd::new());
    assert!(spwd.is_blank());
    spwd.load(&replied).unwrap();
    let clash = with(&ring(), &[&[1, 3, 2, 6], &[2, 4, 3, 4, 1]]);
    assert!(spwd.load(&clash).is_err());
    assert_eq!(spwd, Spwd::new());
}

/// A reply has no say in when a transaction starts, ends or is late.
#[test]
fn runs() {
    let mut spwd = under(&with(&ring(), &[&[1, 3, 2, 6]]));
    assert_eq!(spwd.request(1, 3, READ, 256), Ok(0));
    assert_eq!(spwd.request(1, 3, READ, 257), Err(Refusal::NOT_PERMITTED));
    assert_eq!(spwd.request(2, 4, WRITE, 1), Ok(0));
    let mut buffer = [0; RECORDS_ROOM];
    let mut kinds = |spwd: &mut Spwd, byte: u8| {
        let count = spwd
            .time_code(byte, 100 * u32::from(byte), &mut buffer)
            .unwrap();
        let of = |record: Record| (record.kind, record.initiator);
        records(&buffer, count).map(of).collect::<Vec<_>>()
    };
    let started = [(Record::STARTED, 1), (Record::STARTED, 2)];
    assert_eq!(kinds(&mut spwd, 0), started);
    assert_eq!(spwd.reply(1, 0, 0).unwrap().target, 3);
    assert_eq!(kinds(&mut spwd, 1), [(Record::TRANSACTION_LATE, 2)]);
}

/// The largest length of 1 to 3, which has one slot, at 200 Mbit/s with 5,000 for each latency and so long a slot.
fn largest(replies: &[&[u8]], slot_length: u32) -> Option<u16> {
    let slots = times(200, [5_000, 5_000, 5_000, 5_000, slot_length]);
    let spwd = under(&with(&[ring(), slots].concat(), replies));
    let permits = |&length: &u16| spwd.clone().request(1, 3, READ, length).is_ok();
    (0..=4_096).rev().find(permits)
}

/// Two routers out. Home over two as well: 1,200 + 50 × (2 + 16 + 4) + 1,200 + 50 × 10 = 4,000, with the latencies 24,000. Over one: 600
/// less through it and 50 less for its address in the reply, 23,350. A byte takes 50 ns, and the data has one more.
#[test]
fn lengths() {
    let ways: [(&[&[u8]], u32); 3] = [
        (&[], 24_000),
        (&[&[1, 3, 2, 7, 0]], 24_000),
        (&[&[1, 3, 2, 6]], 23_350),
    ];
    for (replies, fixed) in ways {
        assert_eq!(largest(replies, fixed + 50 * 257), Some(256), "{replies:?}");
        assert_eq!(largest(replies, fixed + 50 * 257 - 1), Some(255));
        assert_eq!(largest(replies, fixed + 50), Some(0));
        assert_eq!(largest(replies, fixed + 49), None);
    }
}

/// As many paths as a plan may have, of eight links, each with a reply of as many, in the order of writing out: routers 1 to 7 in a chain,
/// initiators 10 to 17 on the first and targets 20 to 35 on the last, each over the link of its own number.
fn full() -> Vec<u8> {
    let (initiators, targets) = (10..18_u8, 20..36_u8);
    let mut fields = Vec::new();
    fields.extend((1..8).map(|router| field(1, &[router, 1])));
    let nodes = initiators.clone().chain(targets.clone());
    fields.extend(nodes.map(|node| field(1, &[node, 0])));
    fields.extend((1..7).map(|link| field(2, &[link, link, link + 1])));
    fields.extend(initiators.clone().map(|node| field(2, &[node, 1, node])));
    fields.extend(targets.clone().map(|node| field(2, &[node, 7, node])));
    let pairs = || {
        let targets = targets.clone();
        let of = move |initiator| targets.clone().map(move |target| [initiator, target]);
        initiators.clone().flat_map(of)
    };
    fields.extend(pairs().map(|[i, t]| field(3, &[i, t, i, 1, 2, 3, 4, 5, 6, t])));
    fields.push(field(4, &[10, 0, 1, 20]));
    fields.push(INTERVALS.to_vec());
    fields.extend(pairs().map(|[i, t]| field(7, &[i, t, t, 6, 5, 4, 3, 2, 1, i])));
    fields.concat()
}

#[test]
fn as_many_as_there_can_be() {
    let file = full();
    let counts = Counts {
        devices: 31,
        links: 30,
        paths: PATHS_MOST as u8,
        entries: 1,
    };
    assert_eq!(Spwd::new().load(&file), Ok(counts));
    let mut out = vec![0; WRITTEN_MOST];
    assert_eq!(under(&file).write_out(&mut out), Ok(file.len()));
    assert_eq!(out[..file.len()], file);
    // One more can only be the second of its pair.
    let one = field(7, &[10, 20, 20, 6, 5, 4, 3, 2, 1, 10]);
    prints(
        &[&file[..], &one].concat(),
        &format!("REFUSED 7 {}", file.len()),
    );
}
