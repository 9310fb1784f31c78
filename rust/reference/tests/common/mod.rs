//! Building plans and driving a box.
#![allow(dead_code)]

pub mod model;

use reference::{print_verdict, Answer, Event, Refusal, Unit, Verdict, Watchdog, LINE};

pub fn field(tag: u8, content: &[u8]) -> Vec<u8> {
    let length = u16::try_from(content.len()).unwrap().to_be_bytes();
    [&[tag], &length[..], content].concat()
}

pub fn device(number: u8, kind: u8) -> Vec<u8> {
    field(1, &[number, kind])
}

pub fn link(number: u8, one: u8, other: u8) -> Vec<u8> {
    field(2, &[number, one, other])
}

pub fn path(initiator: u8, target: u8, links: &[u8]) -> Vec<u8> {
    field(3, &[&[initiator, target], links].concat())
}

pub fn entry(initiator: u8, slot: u8, span: u8, targets: &[u8]) -> Vec<u8> {
    field(4, &[&[initiator, slot, span], targets].concat())
}

pub fn intervals(least: u32, greatest: u32) -> Vec<u8> {
    field(5, &[least.to_be_bytes(), greatest.to_be_bytes()].concat())
}

/// Field 06: the rate, the latencies a, d, f, g, and the slot length.
pub fn times(rate: u16, nanoseconds: [u32; 5]) -> Vec<u8> {
    let nanoseconds = nanoseconds.map(u32::to_be_bytes).concat();
    field(6, &[&rate.to_be_bytes()[..], &nanoseconds].concat())
}

/// The same at 200 Mbit/s with latencies of 5,000 each.
pub fn usual_times(slot_length: u32) -> Vec<u8> {
    times(200, [5_000, 5_000, 5_000, 5_000, slot_length])
}

/// Field 07: links from the target back to the initiator.
pub fn reply(initiator: u8, target: u8, links: &[u8]) -> Vec<u8> {
    field(7, &[&[initiator, target], links].concat())
}

/// Devices, links and paths of plan A.
pub fn plan_a_network() -> Vec<Vec<u8>> {
    let nodes = [1, 2, 3, 4].map(|number| device(number, 0));
    let routers = [10, 11].map(|number| device(number, 1));
    let links = [
        link(0, 1, 10),
        link(1, 2, 11),
        link(2, 10, 3),
        link(3, 11, 4),
        link(4, 10, 11),
    ];
    let paths = [
        path(1, 3, &[0, 2]),
        path(1, 4, &[0, 4, 3]),
        path(2, 4, &[1, 3]),
        path(2, 3, &[1, 4, 2]),
    ];
    let fields = [&nodes[..], &routers[..], &links[..], &paths[..]];
    fields.concat()
}

/// Plan A with these fields between its paths and its intervals.
pub fn plan_a(entries: &[Vec<u8>]) -> Vec<u8> {
    let mut fields = plan_a_network();
    fields.extend_from_slice(entries);
    fields.push(intervals(90, 110));
    fields.concat()
}

pub fn first_plan() -> Vec<u8> {
    plan_a(&[entry(1, 0, 1, &[3]), entry(2, 0, 1, &[4])])
}

/// The least that an accepted plan has beside its intervals: nodes 40 and 41 with a link, a path and
/// an entry.
pub fn least_network() -> Vec<Vec<u8>> {
    vec![
        device(40, 0),
        device(41, 0),
        link(40, 40, 41),
        path(40, 41, &[40]),
        entry(40, 0, 1, &[41]),
    ]
}

/// That network with these intervals.
pub fn least_plan(least: u32, greatest: u32) -> Vec<u8> {
    [least_network().concat(), intervals(least, greatest)].concat()
}

/// Nodes 0 to 8; routers 10 to 16 in a row, with links 10 to 15 between them; link 0 joins 0 and 10,
/// link 8 joins 0 and 8, and link n joins node n, 1 to 7, to the router 9 + n. So n routers stand
/// between 0 and n, and none between 0 and 8. The paths go from 0 to each.
pub fn row_network() -> Vec<u8> {
    let mut fields: Vec<Vec<u8>> = (0..9).map(|node| device(node, 0)).collect();
    fields.extend((10..17).map(|router| device(router, 1)));
    fields.push(link(0, 0, 10));
    fields.extend((1..8).map(|node| link(node, node, 9 + node)));
    fields.push(link(8, 0, 8));
    fields.extend((10..16).map(|number| link(number, number, number + 1)));
    for node in 1..8 {
        let mut links = vec![0];
        links.extend(10..9 + node);
        links.push(node);
        fields.push(path(0, node, &links));
    }
    fields.push(path(0, 8, &[8]));
    fields.concat()
}

/// The path of `row_network` with so many routers: its target.
pub fn target_behind(routers: u8) -> u8 {
    match routers {
        0 => 8,
        _ => routers,
    }
}

/// That network with these entries, and these fields after the intervals.
pub fn row_plan(entries: &[Vec<u8>], after: &[u8]) -> Vec<u8> {
    let intervals = intervals(90, 110);
    [row_network(), entries.concat(), intervals, after.to_vec()].concat()
}

/// The network of plan A without its paths, and a second way for every node: router 12, joined to the
/// routers 10 and 11 by links 5 and 6, and to the nodes 1 to 4 by links 21 to 24. It has these fields
/// too, each at the place of its tag, and intervals.
pub fn two_ways(fields: &[Vec<u8>]) -> Vec<u8> {
    let mut all = plan_a_network();
    all.retain(|field| field[0] < 3);
    all.extend([device(12, 1), link(5, 10, 12), link(6, 11, 12)]);
    all.extend((1..5).map(|node| link(20 + node, node, 12)));
    all.push(intervals(90, 110));
    all.extend_from_slice(fields);
    all.sort_by_key(|field| field[0]);
    all.concat()
}

/// The links from node 0 to node 1 with so many routers between, in a network that has such a way for
/// each number up to seven.
pub fn way(routers: u8) -> Vec<u8> {
    match routers {
        0 => vec![20],
        _ => [vec![0], (10..9 + routers).collect(), vec![20 + routers]].concat(),
    }
}

/// The same from node 1 back to node 0.
pub fn way_back(routers: u8) -> Vec<u8> {
    way(routers).into_iter().rev().collect()
}

/// The network of those ways with these fields, each at the place of its tag, and intervals: routers 10
/// to 16 in a row, with links 10 to 15 between them; link 0 joins 0 and 10, link 20 joins 0 and 1, and
/// link 20 + n joins the n-th router and 1.
pub fn all_ways(fields: &[Vec<u8>]) -> Vec<u8> {
    let mut all = vec![device(0, 0), device(1, 0)];
    all.extend((10..17).map(|router| device(router, 1)));
    all.extend([link(0, 0, 10), link(20, 0, 1)]);
    all.extend((10..16).map(|number| link(number, number, number + 1)));
    all.extend((1..8).map(|number| link(20 + number, 9 + number, 1)));
    all.push(intervals(90, 110));
    all.extend_from_slice(fields);
    all.sort_by_key(|field| field[0]);
    all.concat()
}

/// The fields of a well-formed file.
pub fn split(file: &[u8]) -> Vec<Vec<u8>> {
    let mut fields = Vec::new();
    let mut rest = file;
    while !rest.is_empty() {
        let length = usize::from(u16::from_be_bytes([rest[1], rest[2]]));
        let (field, next) = rest.split_at(3 + length);
        fields.push(field.to_vec());
        rest = next;
    }
    fields
}

pub fn line(verdict: &Verdict) -> String {
    let mut out = [b'?'; LINE];
    let size = print_verdict(verdict, &mut out);
    assert!(out[size..].iter().all(|&byte| byte == b'?'));
    String::from_utf8(out[..size].to_vec()).unwrap()
}

/// The printed verdict without its newline.
pub fn verdict(file: &[u8]) -> String {
    let (mut unit, mut watchdog) = used_unit();
    let verdict = unit.load(file, &mut watchdog);
    if verdict.number() != 0 {
        assert_eq!(unit, Unit::new());
        assert_eq!(watchdog, Watchdog::new());
    }
    line(&verdict).strip_suffix('\n').unwrap().to_owned()
}

/// A box with a plan, a line, a live transaction and a time-code seen.
pub fn used_unit() -> (Unit, Watchdog) {
    let mut driver = Driver::new(&first_plan());
    for _ in 0..3 {
        driver.request(1, 3, 0, 100);
        driver.request(2, 4, 1, 256);
    }
    driver.time_code(0, 1000);
    assert_ne!(driver.unit, Unit::new());
    (driver.unit, driver.watchdog)
}

/// A box with its caller's numbers.
#[derive(Clone)]
pub struct Driver {
    pub unit: Unit,
    pub watchdog: Watchdog,
}

impl Driver {
    /// With a plan that must be accepted.
    pub fn new(file: &[u8]) -> Self {
        let mut driver = Self::cleared();
        let verdict = driver.unit.load(file, &mut driver.watchdog);
        assert_eq!(verdict.number(), 0, "{verdict:?}");
        driver
    }

    pub fn cleared() -> Self {
        Self {
            unit: Unit::new(),
            watchdog: Watchdog::new(),
        }
    }

    /// Takes an event with no record buffer.
    pub fn step(&mut self, event: Event) -> Answer {
        self.unit.step(event, &mut self.watchdog, &mut [])
    }

    /// Checks that the event is refused and changes nothing.
    pub fn refuses(&mut self, event: Event, buffer: usize, refusal: Refusal) {
        let before = self.clone();
        let mut records = vec![0xa5; buffer];
        let answer = self.unit.step(event, &mut self.watchdog, &mut records);
        assert_eq!(answer, Answer::Refused(refusal));
        assert_eq!(answer.number(), refusal as u8);
        assert_eq!(self.unit, before.unit);
        assert_eq!(self.watchdog, before.watchdog);
        assert!(records.iter().all(|&byte| byte == 0xa5));
    }

    pub fn request(&mut self, initiator: u8, target: u8, kind: u8, length: u16) -> Answer {
        self.step(Event::Request {
            initiator,
            target,
            kind,
            length,
        })
    }

    pub fn reply(&mut self, initiator: u8, number: u16, status: u8) -> Answer {
        self.step(Event::Reply {
            initiator,
            number,
            status,
        })
    }

    /// The next turn by the summary, which must be that of the search over all entries.
    pub fn next(&self, initiator: u8, target: u8, length: u16, slot: u8) -> (u8, u8) {
        let answer = self.unit.next(initiator, target, length, slot);
        let searched = self.unit.next_by_entries(initiator, target, length, slot);
        assert_eq!(answer, searched, "{initiator} {target} {length} {slot}");
        answer
    }

    pub fn reading(&mut self, clock: u32) -> bool {
        match self.step(Event::Reading { clock }) {
            Answer::Reading { late } => late,
            other => panic!("{other:?}"),
        }
    }

    /// The records of a time-code, which must be taken.
    pub fn time_code(&mut self, byte: u8, clock: u32) -> Vec<[u8; 8]> {
        let mut records = [0xa5; 150];
        let event = Event::TimeCode { byte, clock };
        let answer = self.unit.step(event, &mut self.watchdog, &mut records);
        let Answer::Records { count } = answer else {
            panic!("{answer:?}");
        };
        let (used, unused) = records.split_at(8 * usize::from(count));
        assert!(unused.iter().all(|&byte| byte == 0xa5));
        let records = used.chunks_exact(8);
        records.map(|record| record.try_into().unwrap()).collect()
    }

    pub fn written_out(&self) -> Vec<u8> {
        let mut out = vec![0xa5; 20_000];
        let (number, size) = self.unit.write_out(&mut out);
        assert_eq!(number, 0);
        assert!(out[size..].iter().all(|&byte| byte == 0xa5));
        out.truncate(size);
        out
    }
}

/// Numbers that look random and are the same in every run.
pub struct Random(pub u64);

impl Random {
    pub fn next(&mut self) -> u64 {
        self.0 ^= self.0 << 13;
        self.0 ^= self.0 >> 7;
        self.0 ^= self.0 << 17;
        self.0.wrapping_mul(0x2545_f491_4f6c_dd1d) >> 16
    }

    pub fn below(&mut self, bound: usize) -> usize {
        (self.next() % bound as u64) as usize
    }

    pub fn chance(&mut self, percent: usize) -> bool {
        self.below(100) < percent
    }

    pub fn pick<T: Copy>(&mut self, from: &[T]) -> T {
        from[self.below(from.len())]
    }

    pub fn shuffle<T>(&mut self, items: &mut [T]) {
        for index in (1..items.len()).rev() {
            items.swap(index, self.below(index + 1));
        }
    }
}

/// The same plan in another order.
pub fn shuffled(file: &[u8], random: &mut Random) -> Vec<u8> {
    let mut fields = split(file);
    random.shuffle(&mut fields);
    fields.sort_by_key(|field| field[0]);
    for field in &mut fields {
        match field[0] {
            2 if random.chance(50) => field.swap(4, 5),
            4 => random.shuffle(&mut field[6..]),
            _ => (),
        }
    }
    fields.concat()
}
