//! The same rules once more, written for plainness and not for speed: lists and maps, every rule
//! asked in the order of its number.

use reference::{Answer, Event, Refusal, Verdict, Watchdog};
use std::collections::{BTreeMap, BTreeSet};

type Pair = (u8, u8);

#[derive(Clone, Default)]
pub struct ModelPlan {
    /// Kinds by device.
    pub devices: BTreeMap<u8, u8>,
    pub links: BTreeMap<u8, Pair>,
    pub paths: BTreeMap<Pair, Vec<u8>>,
    /// Links from the target back, by initiator and target.
    pub replies: BTreeMap<Pair, Vec<u8>>,
    /// Span and targets by initiator and slot.
    pub entries: BTreeMap<Pair, (u8, BTreeSet<u8>)>,
    pub intervals: Option<(u32, u32)>,
    /// Field 06: the rate, the latencies, the slot length.
    pub times: Option<[u128; 6]>,
}

/// A verdict's number and the numbers printed after it.
pub type Judged = (u8, Vec<u32>);

impl ModelPlan {
    pub fn judge(file: &[u8]) -> Result<Self, Judged> {
        if file.len() > 16_384 {
            return Err((1, vec![0]));
        }
        let mut plan = Self::default();
        let mut at = 0;
        let mut before = 0;
        while at < file.len() {
            let (tag, content) = plan
                .field(&file[at..], before)
                .map_err(|number| (number, vec![at as u32]))?;
            plan.take(tag, content);
            before = tag;
            at += 3 + content.len();
        }
        if plan.intervals.is_none() {
            return Err((12, vec![file.len() as u32]));
        }
        if plan.entries.is_empty() {
            return Err((15, vec![file.len() as u32]));
        }
        plan.overlap()?;
        plan.clash()?;
        Ok(plan)
    }

    fn field<'a>(&self, rest: &'a [u8], before: u8) -> Result<(u8, &'a [u8]), u8> {
        if rest.len() < 3 {
            return Err(2);
        }
        let (tag, length) = (rest[0], 256 * rest[1] as usize + rest[2] as usize);
        if rest.len() < 3 + length {
            return Err(2);
        }
        let content = &rest[3..3 + length];
        if tag == 0 || tag > 7 {
            return Err(3);
        }
        if tag < before || tag == 5 && before == 5 || tag == 6 && before == 6 {
            return Err(4);
        }
        let allowed = match tag {
            1 => 2..=2,
            2 => 3..=3,
            3 => 3..=10,
            4 => 4..=19,
            5 => 8..=8,
            6 => 22..=22,
            _ => 3..=10,
        };
        if !allowed.contains(&length) {
            return Err(5);
        }
        let faults = [
            (6, self.out_of_range(tag, content)),
            (7, self.given_before(tag, content)),
            (8, self.not_given(tag, content)),
            (9, self.too_many(tag, content)),
        ];
        for (number, found) in faults {
            if found {
                return Err(number);
            }
        }
        if self.no_walk(tag, content) {
            return Err(10);
        }
        if self.no_path(tag, content) {
            return Err(11);
        }
        Ok((tag, content))
    }

    fn out_of_range(&self, tag: u8, content: &[u8]) -> bool {
        let over = |numbers: &[u8]| numbers.iter().any(|&number| number > 63);
        match tag {
            1 => content[0] > 63 || content[1] > 1,
            2 => over(content) || content[1] == content[2],
            3 | 7 => over(content) || content[0] == content[1],
            4 => {
                let span = content[2];
                over(&content[..2]) || span == 0 || span > 16 || over(&content[3..])
            }
            5 => {
                let (least, greatest) = two_intervals(content);
                greatest == 0 || greatest > 2_147_483_647 || least > greatest
            }
            _ => {
                let [rate, times @ ..] = six_times(content);
                !(2..=400).contains(&rate) || times.iter().any(|&time| time > 1_000_000)
            }
        }
    }

    fn given_before(&self, tag: u8, content: &[u8]) -> bool {
        match tag {
            1 => self.devices.contains_key(&content[0]),
            2 => self.links.contains_key(&content[0]),
            3 => self.paths.contains_key(&(content[0], content[1])),
            4 => {
                let targets = &content[3..];
                let twice = (1..targets.len()).any(|k| targets[..k].contains(&targets[k]));
                twice || self.entries.contains_key(&(content[0], content[1]))
            }
            7 => self.replies.contains_key(&(content[0], content[1])),
            _ => false,
        }
    }

    fn not_given(&self, tag: u8, content: &[u8]) -> bool {
        let no_device = |device: &u8| !self.devices.contains_key(device);
        let no_node = |device: &u8| self.devices.get(device) != Some(&0);
        let no_link = |link: &u8| !self.links.contains_key(link);
        match tag {
            2 => content[1..].iter().any(no_device),
            3 | 7 => content[..2].iter().any(no_node) || content[2..].iter().any(no_link),
            4 => no_node(&content[0]) || content[3..].iter().any(no_node),
            _ => false,
        }
    }

    fn too_many(&self, tag: u8, content: &[u8]) -> bool {
        if tag != 3 {
            return false;
        }
        let mut initiators = self.initiators();
        initiators.insert(content[0]);
        initiators.len() > 8 || self.paths.len() == 128
    }

    fn no_walk(&self, tag: u8, content: &[u8]) -> bool {
        match tag {
            3 => !self.is_walk(content[0], content[1], &content[2..]),
            7 => !self.is_walk(content[1], content[0], &content[2..]),
            _ => false,
        }
    }

    fn no_path(&self, tag: u8, content: &[u8]) -> bool {
        let none = |target: &u8| !self.paths.contains_key(&(content[0], *target));
        match tag {
            4 => content[3..].iter().any(none),
            7 => none(&content[1]),
            _ => false,
        }
    }

    fn is_walk(&self, from: u8, to: u8, links: &[u8]) -> bool {
        let mut met = vec![from];
        for link in links {
            let here = *met.last().unwrap();
            let (one, other) = self.links[link];
            let next = match here {
                _ if here == one => other,
                _ if here == other => one,
                _ => return false,
            };
            if met.contains(&next) {
                return false;
            }
            met.push(next);
        }
        let between = &met[1..met.len() - 1];
        met.last() == Some(&to) && between.iter().all(|device| self.devices[device] == 1)
    }

    fn take(&mut self, tag: u8, content: &[u8]) {
        match tag {
            1 => {
                self.devices.insert(content[0], content[1]);
            }
            2 => {
                self.links.insert(content[0], (content[1], content[2]));
            }
            3 => {
                let key = (content[0], content[1]);
                self.paths.insert(key, content[2..].to_vec());
            }
            4 => {
                let targets = content[3..].iter().copied().collect();
                let key = (content[0], content[1]);
                self.entries.insert(key, (content[2], targets));
            }
            5 => self.intervals = Some(two_intervals(content)),
            6 => self.times = Some(six_times(content)),
            _ => {
                let key = (content[0], content[1]);
                self.replies.insert(key, content[2..].to_vec());
            }
        }
    }

    fn overlap(&self) -> Result<(), Judged> {
        for (&(initiator, slot), &(span, _)) in &self.entries {
            for later in 1..span {
                if self.entries.contains_key(&(initiator, (slot + later) % 64)) {
                    return Err((13, vec![initiator.into(), slot.into()]));
                }
            }
        }
        Ok(())
    }

    fn clash(&self) -> Result<(), Judged> {
        for slot in 0..64 {
            for smaller in self.initiators() {
                let used = self.used(smaller, slot);
                for greater in self.initiators().range(smaller + 1..) {
                    if let Some(&link) = used.intersection(&self.used(*greater, slot)).next() {
                        let place = [slot, smaller, *greater, link];
                        return Err((14, place.map(u32::from).to_vec()));
                    }
                }
            }
        }
        Ok(())
    }

    /// The links in the paths to the targets of this initiator's entries that cover the slot, and in
    /// the replies.
    fn used(&self, initiator: u8, slot: u8) -> BTreeSet<u8> {
        let mut links = BTreeSet::new();
        for (&(_, stand), (span, targets)) in self.entries.range((initiator, 0)..=(initiator, 63)) {
            if (0..*span).any(|later| (stand + later) % 64 == slot) {
                for &target in targets {
                    links.extend(&self.paths[&(initiator, target)]);
                    links.extend(self.way_back(initiator, target));
                }
            }
        }
        links
    }

    /// The links that a reply goes over: its own, or those of the path.
    pub fn way_back(&self, initiator: u8, target: u8) -> &[u8] {
        let own = self.replies.get(&(initiator, target));
        own.unwrap_or_else(|| &self.paths[&(initiator, target)])
    }

    pub fn initiators(&self) -> BTreeSet<u8> {
        self.paths.keys().map(|&(initiator, _)| initiator).collect()
    }

    pub fn counts(&self) -> Vec<u32> {
        [
            self.devices.len(),
            self.links.len(),
            self.paths.len(),
            self.entries.len(),
        ]
        .map(|count| count as u32)
        .to_vec()
    }

    /// Whether an entry of this initiator with this span and target has room for the length.
    pub fn fits(&self, initiator: u8, span: u8, target: u8, length: u16) -> bool {
        let Some([rate, a, d, f, g, slot_length]) = self.times else {
            return length <= 256 * u16::from(span);
        };
        let command = self.paths[&(initiator, target)].len() as u128 - 1;
        let reply = self.way_back(initiator, target).len() as u128 - 1;
        let time = time((command, reply), rate, length.into(), [a, d, f, g]);
        length <= 4_096 && time <= u128::from(span) * slot_length
    }

    pub fn written_out(&self) -> Vec<u8> {
        let mut out = Vec::new();
        for (&device, &kind) in &self.devices {
            out.extend(super::device(device, kind));
        }
        for (&link, &(one, other)) in &self.links {
            out.extend(super::link(link, one.min(other), one.max(other)));
        }
        for (&(initiator, target), links) in &self.paths {
            out.extend(super::path(initiator, target, links));
        }
        for (&(initiator, slot), (span, targets)) in &self.entries {
            let targets: Vec<u8> = targets.iter().copied().collect();
            out.extend(super::entry(initiator, slot, *span, &targets));
        }
        let (least, greatest) = self.intervals.unwrap();
        out.extend(super::intervals(least, greatest));
        if let Some([rate, times @ ..]) = self.times {
            out.extend(super::times(rate as u16, times.map(|time| time as u32)));
        }
        for (&(initiator, target), links) in &self.replies {
            out.extend(super::reply(initiator, target, links));
        }
        out
    }
}

/// The time sheet with so many routers on the command's way and on the reply's.
pub fn time(
    (command, reply): (u128, u128),
    rate: u128,
    length: u128,
    latencies: [u128; 4],
) -> u128 {
    let mut padded = reply;
    while padded % 4 != 0 {
        padded += 1;
    }
    let [a, d, f, g] = latencies;
    let b = 600 * command;
    let c = rounded_up(10_000 * (command + 16 + padded), rate);
    let e = rounded_up(10_000 * (length + 1), rate);
    let h = 600 * reply;
    let i = rounded_up(10_000 * (reply + 8), rate);
    a + b + c + d + e + f + g + h + i
}

fn rounded_up(dividend: u128, divisor: u128) -> u128 {
    dividend / divisor + u128::from(dividend % divisor != 0)
}

/// Bytes as one number, the high byte first.
fn number(bytes: &[u8]) -> u32 {
    bytes
        .iter()
        .fold(0, |all, &byte| all << 8 | u32::from(byte))
}

fn two_intervals(content: &[u8]) -> (u32, u32) {
    (number(&content[..4]), number(&content[4..]))
}

fn six_times(content: &[u8]) -> [u128; 6] {
    let ends = [0, 2, 6, 10, 14, 18, 22];
    std::array::from_fn(|index| number(&content[ends[index]..ends[index + 1]]).into())
}

/// What a verdict of the box says in the model's form.
pub fn judged(verdict: &Verdict) -> Judged {
    let values = match *verdict {
        Verdict::Accepted {
            devices,
            links,
            paths,
            entries,
        } => vec![devices.into(), links.into(), paths.into(), entries.into()],
        Verdict::Refused { place, .. } => vec![place.into()],
        Verdict::Overlap { initiator, slot } => vec![initiator.into(), slot.into()],
        Verdict::Clash {
            slot,
            smaller,
            greater,
            link,
        } => [slot, smaller, greater, link].map(u32::from).to_vec(),
    };
    (verdict.number(), values)
}

#[derive(Clone)]
struct Waiting {
    target: u8,
    length: u16,
    number: u16,
}

struct Live {
    what: Waiting,
    span: u8,
    /// The count of accepted time-codes at its start, its own included.
    started: u64,
}

#[derive(Default)]
struct Initiator {
    next: u16,
    line: Vec<Waiting>,
    live: Option<Live>,
}

/// A box of the model with its caller's numbers.
pub struct Model {
    plan: Option<ModelPlan>,
    initiators: BTreeMap<u8, Initiator>,
    last: Option<u8>,
    accepted: u64,
    pub watchdog: Watchdog,
}

impl Model {
    pub fn new() -> Self {
        Self {
            plan: None,
            initiators: BTreeMap::new(),
            last: None,
            accepted: 0,
            watchdog: Watchdog::new(),
        }
    }

    pub fn load(&mut self, file: &[u8]) -> Judged {
        *self = Self::new();
        match ModelPlan::judge(file) {
            Err(judged) => judged,
            Ok(plan) => {
                (self.watchdog.least, self.watchdog.greatest) = plan.intervals.unwrap();
                for initiator in plan.initiators() {
                    self.initiators.insert(initiator, Initiator::default());
                }
                let counts = plan.counts();
                self.plan = Some(plan);
                (0, counts)
            }
        }
    }

    pub fn last(&self) -> Option<u8> {
        self.last
    }

    /// Initiator and number of each live transaction.
    pub fn live(&self) -> Vec<(u8, u16)> {
        let live = |(&who, initiator): (&u8, &Initiator)| {
            initiator.live.as_ref().map(|live| (who, live.what.number))
        };
        self.initiators.iter().filter_map(live).collect()
    }

    /// Whether some link is used by two live transactions, both ways of each counted.
    pub fn live_ones_share_a_link(&self) -> bool {
        let mut used = BTreeSet::new();
        for (&who, initiator) in &self.initiators {
            let (Some(plan), Some(live)) = (&self.plan, &initiator.live) else {
                continue;
            };
            let mut links: BTreeSet<u8> = BTreeSet::new();
            links.extend(&plan.paths[&(who, live.what.target)]);
            links.extend(plan.way_back(who, live.what.target));
            if !links.is_disjoint(&used) {
                return true;
            }
            used.extend(links);
        }
        false
    }

    pub fn plan(&self) -> Option<&ModelPlan> {
        self.plan.as_ref()
    }

    /// Whether it is as at the start, with five numbers that are all 0.
    pub fn is_blank(&self) -> bool {
        let none = self.plan.is_none() && self.initiators.is_empty() && self.last.is_none();
        none && self.accepted == 0 && self.watchdog == Watchdog::new()
    }

    /// Whether it has the plan of this file: both are written out alike.
    pub fn holds(&self, file: &[u8]) -> bool {
        match (&self.plan, ModelPlan::judge(file)) {
            (Some(plan), Ok(other)) => plan.written_out() == other.written_out(),
            _ => false,
        }
    }

    /// The next turn: the refusal's number or 0, and the count.
    pub fn next(&self, who: u8, target: u8, length: u16, slot: u8) -> (u8, u8) {
        let Some(plan) = &self.plan else {
            return (20, 0);
        };
        if !plan.initiators().contains(&who) {
            return (22, 0);
        }
        if length > 4_096 {
            return (24, 0);
        }
        let mut stands: Vec<u8> = Vec::new();
        for (&(other, stand), (span, targets)) in &plan.entries {
            if other == who && targets.contains(&target) && plan.fits(who, *span, target, length) {
                stands.push(stand);
            }
        }
        if stands.is_empty() {
            return (25, 0);
        }
        if slot > 63 {
            return (33, 0);
        }
        let (mut here, mut count) = (slot, 0);
        loop {
            here = if here == 63 { 0 } else { here + 1 };
            count += 1;
            if stands.contains(&here) {
                return (0, count);
            }
        }
    }

    /// The answer, and the record bytes of a time-code.
    pub fn step(&mut self, event: Event, buffer: usize) -> (Answer, Vec<u8>) {
        let mut records = Vec::new();
        let answer = if self.plan.is_none() {
            Err(Refusal::NoPlan)
        } else {
            match event {
                Event::TimeCode { byte, clock } => {
                    self.time_code(byte, clock, buffer, &mut records)
                }
                Event::Request {
                    initiator,
                    target,
                    kind,
                    length,
                } => self.request(initiator, target, kind, length),
                Event::Reply {
                    initiator,
                    number,
                    status,
                } => self.reply(initiator, number, status),
                Event::Reading { clock } => Ok(self.reading(clock)),
            }
        };
        (answer.unwrap_or_else(Answer::Refused), records)
    }

    fn request(&mut self, who: u8, target: u8, kind: u8, length: u16) -> Result<Answer, Refusal> {
        let plan = self.plan.as_ref().unwrap();
        let initiator = self.initiators.get_mut(&who).ok_or(Refusal::NoInitiator)?;
        if kind != 0 && kind != 1 {
            return Err(Refusal::Kind);
        }
        if length > 4096 {
            return Err(Refusal::Length);
        }
        let permitted = plan.entries.iter().any(|(&(other, _), (span, targets))| {
            other == who && targets.contains(&target) && plan.fits(who, *span, target, length)
        });
        if !permitted {
            return Err(Refusal::NotPermitted);
        }
        if initiator.line.len() == 8 {
            return Err(Refusal::LineFull);
        }
        let number = initiator.next;
        initiator.next = if number == 65_535 { 0 } else { number + 1 };
        initiator.line.push(Waiting {
            target,
            length,
            number,
        });
        Ok(Answer::Taken { number })
    }

    fn reply(&mut self, who: u8, number: u16, status: u8) -> Result<Answer, Refusal> {
        let initiator = self.initiators.get_mut(&who).ok_or(Refusal::NoInitiator)?;
        let live = initiator.live.as_ref().ok_or(Refusal::NothingLive)?;
        if live.what.number != number {
            return Err(Refusal::OtherNumber);
        }
        let Waiting { target, length, .. } = live.what;
        initiator.live = None;
        let class = match status {
            0 => 0,
            8 => 2,
            1..13 => 1,
            _ => 2,
        };
        Ok(Answer::Ended {
            target,
            length,
            status,
            class,
        })
    }

    fn elapsed(&self, clock: u32) -> u64 {
        (u64::from(clock) + (1 << 32) - u64::from(self.watchdog.last)) % (1 << 32)
    }

    fn reading(&mut self, clock: u32) -> Answer {
        let late = self.watchdog.seen != 0
            && self.elapsed(clock) > self.watchdog.greatest.into()
            && self.watchdog.reported == 0;
        if late {
            self.watchdog.reported = 1;
        }
        Answer::Reading { late }
    }

    fn time_code(
        &mut self,
        byte: u8,
        clock: u32,
        buffer: usize,
        records: &mut Vec<u8>,
    ) -> Result<Answer, Refusal> {
        if byte & 0xc0 != 0 {
            return Err(Refusal::UpperBits);
        }
        if buffer < 136 {
            return Err(Refusal::SmallBuffer);
        }
        let mark = |kind| [kind, 0, 0, byte, 0, 0, 0, 0];
        if self.watchdog.seen != 0 {
            let elapsed = self.elapsed(clock);
            if elapsed < self.watchdog.least.into() {
                records.extend(mark(1));
            } else if elapsed > self.watchdog.greatest.into() && self.watchdog.reported == 0 {
                records.extend(mark(2));
            }
        }
        self.watchdog.last = clock;
        self.watchdog.seen = 1;
        self.watchdog.reported = 0;
        let in_sequence = self.last.is_none_or(|last| byte == (last + 1) % 64);
        self.last = Some(byte);
        self.accepted += 1;
        if !in_sequence {
            records.extend(mark(3));
        }
        self.end_late(byte, in_sequence, records);
        if in_sequence {
            self.start(byte, records);
        }
        Ok(Answer::Records {
            count: (records.len() / 8) as u8,
        })
    }

    fn end_late(&mut self, value: u8, in_sequence: bool, records: &mut Vec<u8>) {
        for (&who, initiator) in &mut self.initiators {
            let late = initiator.live.as_ref().is_some_and(|live| {
                !in_sequence || self.accepted - live.started == u64::from(live.span)
            });
            if late {
                let live = initiator.live.take().unwrap();
                records.extend(record(4, who, value, &live.what));
            }
        }
    }

    fn start(&mut self, value: u8, records: &mut Vec<u8>) {
        let plan = self.plan.as_ref().unwrap();
        for (&who, initiator) in &mut self.initiators {
            let Some((span, targets)) = plan.entries.get(&(who, value)) else {
                continue;
            };
            if let Some(live) = &initiator.live {
                records.extend(record(6, who, value, &live.what));
                continue;
            }
            let oldest = initiator.line.iter().position(|waiting| {
                let Waiting { target, length, .. } = *waiting;
                targets.contains(&target) && plan.fits(who, *span, target, length)
            });
            if let Some(index) = oldest {
                let what = initiator.line.remove(index);
                records.extend(record(5, who, value, &what));
                initiator.live = Some(Live {
                    what,
                    span: *span,
                    started: self.accepted,
                });
            }
        }
    }
}

fn record(kind: u8, initiator: u8, value: u8, what: &Waiting) -> [u8; 8] {
    let [a, b] = what.number.to_be_bytes();
    let [c, d] = what.length.to_be_bytes();
    [kind, initiator, what.target, value, a, b, c, d]
}
