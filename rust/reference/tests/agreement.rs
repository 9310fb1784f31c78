//! The box beside the model, on plans and events drawn at random.

mod common;

use common::model::{judged, time, Model, ModelPlan};
use common::{
    all_ways, device, entry, field, intervals, line, link, path, reply, row_plan, split, times,
    way, way_back, Driver, Random,
};
use reference::{Answer, Event, Refusal, Unit, Watchdog};
use std::collections::{BTreeMap, BTreeSet};

/// More of them with the environment variable `CASES`, from another start with `START`.
fn cases() -> u64 {
    number("CASES").unwrap_or(600)
}

fn number(name: &str) -> Option<u64> {
    std::env::var(name).ok()?.parse().ok()
}

#[test]
fn box_and_model_agree() {
    let mut random = Random(number("START").unwrap_or(0x1234_5678_9abc));
    let mut driver = Driver::cleared();
    let mut model = Model::new();
    let mut seen = Seen::default();
    for _ in 0..cases() {
        let mut file = plan(&mut random);
        while random.chance(45) {
            file = spoilt(&file, &mut random);
        }
        let number = load(&mut driver, &mut model, &file);
        seen.verdict(&file);
        if number == 0 {
            check_written_out(&driver, &model);
        }
        seen.asked(&driver, &model, &asked_files(&file, &mut random));
        let events = if number == 0 { 300 } else { 3 };
        for _ in 0..events {
            seen.turns.insert(turn(&driver, &model, &mut random));
            seen.by_time += u64::from(step(&mut driver, &mut model, &mut random));
        }
        seen.asked(&driver, &model, &asked_files(&file, &mut random));
    }
    seen.check();
}

/// What was reached.
#[derive(Default)]
struct Seen {
    verdicts: BTreeSet<u8>,
    /// Those on a reply.
    on_replies: BTreeSet<u8>,
    /// Clashes in plans that without their replies have none.
    by_reply: u64,
    /// Accepted with replies: without times, with times.
    accepted: [u64; 2],
    /// Requests refused for their time.
    by_time: u64,
    /// Refusals of the next turn, and 0.
    turns: BTreeSet<u8>,
    /// Whether it was blank.
    blank: BTreeSet<bool>,
    /// Of the files asked about: whether the box had a plan, whether the file is accepted, whether the
    /// box holds its plan.
    holds: BTreeSet<(bool, bool, bool)>,
}

impl Seen {
    fn verdict(&mut self, file: &[u8]) {
        let judged = ModelPlan::judge(file);
        let number = judged.as_ref().map_or_else(|judged| judged.0, |_| 0);
        self.verdicts.insert(number);
        match judged {
            Err((2..=11, place)) if file[place[0] as usize] == 7 => {
                self.on_replies.insert(number);
            }
            Err((14, _)) => {
                let mut fields = split(file);
                fields.retain(|field| field[0] != 7);
                self.by_reply += u64::from(ModelPlan::judge(&fields.concat()).is_ok());
            }
            Ok(plan) if !plan.replies.is_empty() => {
                self.accepted[usize::from(plan.times.is_some())] += 1;
            }
            _ => {}
        }
    }

    /// Asks both whether they are blank and which of these files they hold.
    fn asked(&mut self, driver: &Driver, model: &Model, files: &[Vec<u8>]) {
        let blank = driver.unit.is_blank(&driver.watchdog);
        assert_eq!(blank, model.is_blank());
        self.blank.insert(blank);
        let mut other = Unit::new();
        for file in files {
            let holds = driver.unit.holds(file, &mut other);
            assert_eq!(holds, model.holds(file), "{file:?}");
            let (plan, accepted) = (model.plan().is_some(), ModelPlan::judge(file).is_ok());
            self.holds.insert((plan, accepted, holds));
        }
    }

    fn check(&self) {
        assert_eq!(self.verdicts, (0..16).collect());
        assert_eq!(self.on_replies, BTreeSet::from([2, 5, 6, 7, 8, 10, 11]));
        assert!(self.by_time > 0, "no request was refused for its time");
        assert!(self.by_reply > 0, "no reply made a clash");
        let [plain, timed] = self.accepted;
        assert!(plain > 0 && timed > 0, "no plan with replies was accepted");
        assert_eq!(self.turns, BTreeSet::from([0, 20, 22, 24, 25, 33]));
        assert_eq!(self.blank, BTreeSet::from([false, true]));
        let all = [
            (false, false, false),
            (false, true, false),
            (true, false, false),
            (true, true, false),
            (true, true, true),
        ];
        assert_eq!(self.holds, BTreeSet::from(all));
    }
}

/// The file, the same in another order, two that are spoilt, and another plan.
fn asked_files(file: &[u8], random: &mut Random) -> Vec<Vec<u8>> {
    let spoilt_ones = [spoilt(file, random), spoilt(file, random)];
    let mut files = vec![file.to_vec(), plan(random)];
    files.extend(spoilt_ones);
    if ModelPlan::judge(file).is_ok() {
        let mut fields = split(file);
        random.shuffle(&mut fields);
        fields.sort_by_key(|field| field[0]);
        files.push(fields.concat());
    }
    files
}

/// Loads both and gives the verdict's number.
fn load(driver: &mut Driver, model: &mut Model, file: &[u8]) -> u8 {
    let verdict = driver.unit.load(file, &mut driver.watchdog);
    let (number, values) = model.load(file);
    assert_eq!(judged(&verdict), (number, values.clone()), "{file:?}");
    let mut words = match number {
        0 => vec!["ACCEPTED".to_owned()],
        _ => vec!["REFUSED".to_owned(), number.to_string()],
    };
    words.extend(values.iter().map(u32::to_string));
    assert_eq!(line(&verdict), words.join(" ") + "\n");
    assert_eq!(driver.watchdog, model.watchdog);
    if number != 0 {
        assert_eq!(driver.unit, Unit::new());
    }
    number
}

fn check_written_out(driver: &Driver, model: &Model) {
    let out = driver.written_out();
    assert_eq!(out, model.plan().unwrap().written_out());
    assert_eq!(Driver::new(&out).unit, driver.unit);
}

/// Asks both for the next turn of such a request as they are handed, and gives the answer's number.
fn turn(driver: &Driver, model: &Model, random: &mut Random) -> u8 {
    let strange = random.chance(10);
    let Event::Request {
        initiator,
        target,
        length,
        ..
    } = request(model, strange, random)
    else {
        return 0;
    };
    let slot = match random.below(10) {
        0 => random.next() as u8,
        _ => random.below(64) as u8,
    };
    let answer = driver.next(initiator, target, length, slot);
    let expected = model.next(initiator, target, length, slot);
    assert_eq!(answer, expected, "{initiator} {target} {length} {slot}");
    answer.0
}

/// Hands both an event, and says whether it was a request that is refused for its time alone.
fn step(driver: &mut Driver, model: &mut Model, random: &mut Random) -> bool {
    if random.chance(2) {
        let five = strange_watchdog(random);
        (driver.watchdog, model.watchdog) = (five, five);
    }
    let event = event(model, random);
    let buffer = match random.below(20) {
        0 => random.below(140),
        _ => 136 + random.below(30),
    };
    let mut records = vec![0xa5; buffer];
    let answer = driver.unit.step(event, &mut driver.watchdog, &mut records);
    let (expected, mut bytes) = model.step(event, buffer);
    assert_eq!(answer, expected, "{event:?}");
    bytes.resize(buffer, 0xa5);
    assert_eq!(records, bytes, "{event:?}");
    assert_eq!(driver.watchdog, model.watchdog);
    assert!(!model.live_ones_share_a_link(), "{event:?}");
    answer == Answer::Refused(Refusal::NotPermitted) && for_its_time(model, event)
}

fn for_its_time(model: &Model, event: Event) -> bool {
    let (
        Some(plan),
        Event::Request {
            initiator, target, ..
        },
    ) = (model.plan(), event)
    else {
        return false;
    };
    let aimed = |((other, _), (_, targets)): (&(u8, u8), &(u8, BTreeSet<u8>))| {
        *other == initiator && targets.contains(&target)
    };
    plan.times.is_some() && plan.entries.iter().any(aimed)
}

fn strange_watchdog(random: &mut Random) -> Watchdog {
    let few = [0, 1, 2, 100, 0x7fff_ffff, 0x8000_0000, u32::MAX];
    Watchdog {
        last: random.pick(&few),
        seen: random.pick(&few),
        reported: random.pick(&few),
        least: random.pick(&few),
        greatest: random.pick(&few),
    }
}

/// An event that makes sense most of the time.
fn event(model: &Model, random: &mut Random) -> Event {
    let strange = random.chance(5);
    let clock = clock(model, random);
    match random.below(10) {
        0..4 => {
            let byte = match model.last() {
                _ if strange => random.next() as u8,
                Some(last) if !random.chance(4) => (last + 1) % 64,
                _ => random.below(64) as u8,
            };
            Event::TimeCode { byte, clock }
        }
        4..8 => request(model, strange, random),
        8 => answered(model, strange, random),
        _ => Event::Reading { clock },
    }
}

fn clock(model: &Model, random: &mut Random) -> u32 {
    let Watchdog {
        last,
        least,
        greatest,
        ..
    } = model.watchdog;
    let between = least.wrapping_add(greatest.wrapping_sub(least) / 2);
    let elapsed = match random.below(8) {
        0 => least.wrapping_sub(1),
        1 => least,
        2 => greatest,
        3 => greatest.wrapping_add(1),
        4 => random.next() as u32,
        _ => between,
    };
    last.wrapping_add(elapsed)
}

fn request(model: &Model, strange: bool, random: &mut Random) -> Event {
    let mut keys: Vec<(u8, u8, u8)> = Vec::new();
    if let Some(plan) = model.plan() {
        for (&(initiator, _), (span, targets)) in &plan.entries {
            keys.extend(targets.iter().map(|&target| (initiator, target, *span)));
        }
    }
    let (mut initiator, mut target) = (random.next() as u8, random.next() as u8);
    let mut most = 256;
    if !strange && !keys.is_empty() {
        let span;
        (initiator, target, span) = random.pick(&keys);
        most = longest(model.plan().unwrap(), initiator, span, target);
    }
    let length = match random.below(6) {
        0 => 0,
        1 => most,
        2 => most + 1,
        3 if strange => random.next() as u16,
        _ => random.below(usize::from(most) + 1) as u16,
    };
    let kind = if strange {
        random.below(4)
    } else {
        random.below(2)
    } as u8;
    Event::Request {
        initiator,
        target,
        kind,
        length,
    }
}

/// The greatest length that fits, 0 if none does.
fn longest(plan: &ModelPlan, initiator: u8, span: u8, target: u8) -> u16 {
    let (mut fits, mut over) = (0, 4_097);
    while over - fits > 1 {
        let middle = (fits + over) / 2;
        match plan.fits(initiator, span, target, middle) {
            true => fits = middle,
            false => over = middle,
        }
    }
    fits
}

fn answered(model: &Model, strange: bool, random: &mut Random) -> Event {
    let live = model.live();
    let (mut initiator, mut number) = (random.below(70) as u8, random.below(4) as u16);
    if !live.is_empty() {
        (initiator, number) = random.pick(&live);
    }
    if strange {
        number = random.next() as u16;
    }
    let status = random.below(20) as u8;
    Event::Reply {
        initiator,
        number,
        status,
    }
}

/// A plan that is often accepted, its fields and targets in no order.
fn plan(random: &mut Random) -> Vec<u8> {
    let mut numbers: Vec<u8> = (0..64).collect();
    random.shuffle(&mut numbers);
    let (nodes, rest) = numbers.split_at(2 + random.below(14));
    let routers = &rest[..random.below(8)];
    let devices = [nodes, routers].concat();
    let mut fields: Vec<Vec<u8>> = nodes.iter().map(|&node| device(node, 0)).collect();
    fields.extend(routers.iter().map(|&router| device(router, 1)));

    let links = network(&devices, routers, random);
    fields.extend(
        links
            .iter()
            .map(|&(number, one, other)| link(number, one, other)),
    );

    let between = match random.below(20) {
        0 => &devices,
        _ => routers,
    };
    let initiators = &nodes[..nodes.len().min(1 + random.below(11))];
    let found = paths(initiators, routers, &links, between, random);
    let ends = |met: &[u8]| (met[0], met[met.len() - 1]);
    for (met, links) in &found {
        let (initiator, target) = ends(met);
        fields.push(path(initiator, target, links));
    }
    let pairs: Vec<(u8, u8)> = found.iter().map(|(met, _)| ends(met)).collect();
    let mut replies = replies(&pairs, &links, between, random);
    // Entries that do not know of the replies are such that only these may clash.
    if random.chance(50) {
        fields.append(&mut replies);
    }
    let careful = random.chance(90);
    fields.push(five(random));
    if !pairs.is_empty() {
        add_entries(&mut fields, &pairs, careful, random);
    }
    fields.append(&mut replies);
    if random.chance(50) {
        fields.push(six(random));
    }
    random.shuffle(&mut fields);
    fields.sort_by_key(|field| field[0]);
    fields.concat()
}

/// Up to 128 walks, each of another pair; few of them end at a router.
fn paths(
    initiators: &[u8],
    routers: &[u8],
    links: &[(u8, u8, u8)],
    between: &[u8],
    random: &mut Random,
) -> Vec<Walk> {
    let mut found = Vec::new();
    for &initiator in initiators {
        walks(links, between, vec![initiator], vec![], &mut found);
    }
    if random.chance(95) {
        found.retain(|(met, _)| !routers.contains(&met[met.len() - 1]));
    }
    random.shuffle(&mut found);
    found.sort_by_key(|(met, _)| (met[0], met[met.len() - 1]));
    found.dedup_by_key(|(met, _)| (met[0], met[met.len() - 1]));
    random.shuffle(&mut found);
    found.truncate(1 + random.below(128));
    found
}

/// Replies over any walk that leads back, for none, some or all of these pairs.
fn replies(
    pairs: &[(u8, u8)],
    links: &[(u8, u8, u8)],
    between: &[u8],
    random: &mut Random,
) -> Vec<Vec<u8>> {
    let share = random.pick(&[0, 40, 100]);
    let mut from: BTreeMap<u8, Vec<Walk>> = BTreeMap::new();
    let mut replies = Vec::new();
    for &(initiator, target) in pairs {
        if !random.chance(share) {
            continue;
        }
        let found = from.entry(target).or_insert_with(|| {
            let mut found = Vec::new();
            walks(links, between, vec![target], vec![], &mut found);
            found
        });
        let back: Vec<&Walk> = found
            .iter()
            .filter(|(met, _)| met[met.len() - 1] == initiator)
            .collect();
        if !back.is_empty() {
            replies.push(reply(initiator, target, &random.pick(&back).1));
        }
    }
    replies
}

fn five(random: &mut Random) -> Vec<u8> {
    let (mut least, mut greatest) = (90, 110);
    if random.chance(20) {
        let top = 2_147_483_647;
        greatest = random.pick(&[1, 2, 110, top - 1, top]);
        least = random.pick(&[0, 1, greatest / 2, greatest]);
    }
    intervals(least, greatest)
}

/// Times, half of them with a slot length that some time just fits or just does not.
fn six(random: &mut Random) -> Vec<u8> {
    let top = 1_000_000;
    let rate = match random.below(4) {
        0 => random.pick(&[2, 3, 399, 400]),
        _ => 2 + random.below(399) as u16,
    };
    let four: [u32; 4] = std::array::from_fn(|_| match random.below(8) {
        0 => random.pick(&[0, 1, top - 1, top]),
        _ => random.below(20_000) as u32,
    });
    let slot_length = match random.below(4) {
        0 => random.pick(&[0, 1, top - 1, top]),
        1 => random.below(top as usize + 1) as u32,
        _ => {
            let routers = (random.below(8) as u128, random.below(8) as u128);
            let length = random.below(4_097) as u128;
            let time = time(routers, rate.into(), length, four.map(u128::from)) as u32;
            let enough = time.div_ceil(1 + random.below(3) as u32);
            (enough - random.below(2) as u32).min(top)
        }
    };
    let [a, d, f, g] = four;
    times(rate, [a, d, f, g, slot_length])
}

/// Links that join every device to one before it, and some more.
fn network(devices: &[u8], routers: &[u8], random: &mut Random) -> Vec<(u8, u8, u8)> {
    let mut numbers: Vec<u8> = (0..64).collect();
    random.shuffle(&mut numbers);
    let mut links = Vec::new();
    for (index, &device) in devices.iter().enumerate() {
        let hub = match routers {
            [] => devices[random.below(devices.len())],
            _ => routers[random.below(routers.len())],
        };
        if hub != device && index < numbers.len() {
            links.push((numbers[index], device, hub));
        }
    }
    for &number in &numbers[devices.len()..][..random.below(12)] {
        let (one, other) = (random.pick(devices), random.pick(devices));
        if one != other {
            links.push((number, one, other));
        }
    }
    links
}

type Walk = (Vec<u8>, Vec<u8>);

/// The devices and links of every walk on from this one, up to a bound on their number; it goes
/// through devices that may stand between.
fn walks(
    all: &[(u8, u8, u8)],
    between: &[u8],
    met: Vec<u8>,
    links: Vec<u8>,
    found: &mut Vec<Walk>,
) {
    let here = met[met.len() - 1];
    for &(number, one, other) in all {
        let next = match here {
            _ if here == one => other,
            _ if here == other => one,
            _ => continue,
        };
        if met.contains(&next) || links.len() == 8 || found.len() > 600 {
            continue;
        }
        let met = [&met[..], &[next]].concat();
        let links = [&links[..], &[number]].concat();
        if between.contains(&next) {
            walks(all, between, met.clone(), links.clone(), found);
        }
        found.push((met, links));
    }
}

/// Adds entries; careful ones are left out again if they spoil the plan.
fn add_entries(fields: &mut Vec<Vec<u8>>, pairs: &[(u8, u8)], careful: bool, random: &mut Random) {
    for _ in 0..random.below(24) {
        let (initiator, _) = random.pick(pairs);
        let mut targets: Vec<u8> = pairs
            .iter()
            .filter(|&&(other, _)| other == initiator)
            .map(|&(_, target)| target)
            .collect();
        random.shuffle(&mut targets);
        targets.truncate(1 + random.below(if careful { 3 } else { 16 }));
        targets.truncate(16);
        let slot = match random.below(3) {
            0 => random.pick(&[60, 61, 62, 63, 0, 1]),
            _ => random.below(64) as u8,
        };
        let span = match random.below(3) {
            0 => 1 + random.below(16),
            _ => 1 + random.below(3),
        };
        let added = entry(initiator, slot, span as u8, &targets);
        let five = fields.pop().unwrap();
        fields.push(added);
        fields.push(five);
        if careful {
            let mut sorted = fields.clone();
            sorted.sort_by_key(|field| field[0]);
            if ModelPlan::judge(&sorted.concat()).is_err() {
                fields.remove(fields.len() - 2);
            }
        }
    }
}

/// The file with one thing changed.
fn spoilt(file: &[u8], random: &mut Random) -> Vec<u8> {
    let mut file = file.to_vec();
    if file.is_empty() {
        return vec![random.next() as u8; random.below(4)];
    }
    let at = random.below(file.len());
    match random.below(10) {
        0 => file.truncate(at),
        1 => file[at] = random.next() as u8,
        2 => file[at] ^= 1 << random.below(8),
        3 => file[at] = random.below(18) as u8,
        4 => file.extend((0..random.below(5)).map(|_| random.below(7) as u8)),
        5 => {
            let times = 1 + random.below(1 + 17_000 / file.len());
            file.extend(file.clone().repeat(times));
        }
        _ => return spoilt_fields(&file, random),
    }
    file
}

/// The same among the fields, if they all pass.
fn spoilt_fields(file: &[u8], random: &mut Random) -> Vec<u8> {
    if matches!(ModelPlan::judge(file), Err((1..12, _))) {
        return file.to_vec();
    }
    let mut fields = split(file);
    // Intervals and times stand alone among many others.
    let alone = fields.iter().rposition(|field| [5, 6].contains(&field[0]));
    let at = match (random.below(4), alone) {
        (0, Some(place)) => place,
        _ => random.below(fields.len()),
    };
    match random.below(12) {
        0 => {
            fields.remove(at);
        }
        1 => {
            let again = fields[at].clone();
            fields.insert(at, again);
        }
        2 => {
            let other = random.below(fields.len());
            fields.swap(at, other);
        }
        3 => {
            let content = &fields[at][3..];
            let size = random.below(content.len() + 4);
            let longer: Vec<u8> = content.iter().copied().cycle().take(size).collect();
            fields[at] = field(fields[at][0], &longer);
        }
        4 => fields.retain(|field| field[0] != 4),
        5..10 => fields.extend(spoilt_reply(&fields, random)),
        _ => {
            let index = 3 + random.below(fields[at].len() - 3);
            let other = random.below(fields.len());
            let other = random.pick(&fields[other][3..]);
            fields[at][index] = other;
        }
    }
    fields.concat()
}

/// A reply at the end, made of a path: with the path's links as they are, of the pair turned, or over
/// the links back; perhaps with something changed or cut off.
fn spoilt_reply(fields: &[Vec<u8>], random: &mut Random) -> Option<Vec<u8>> {
    let paths: Vec<&Vec<u8>> = fields.iter().filter(|field| field[0] == 3).collect();
    if paths.is_empty() {
        return None;
    }
    let mut content = random.pick(&paths)[3..].to_vec();
    match random.below(4) {
        0 => {}
        1 => content[2..].reverse(),
        _ => content.swap(0, 1),
    }
    let index = random.below(content.len());
    match random.below(8) {
        0 => content[index] = random.pick(&[64, 128, 255]),
        1 => content[index] = random.below(64) as u8,
        2 => content[1] = content[0],
        3 => content.resize(random.pick(&[0, 1, 2, 11, 12]), 0),
        _ => {}
    }
    let mut reply = field(7, &content);
    if random.chance(10) {
        reply.truncate(1 + random.below(reply.len() - 1));
    }
    Some(reply)
}

#[test]
fn lengths_that_fit_as_the_model_has_them() {
    let mut random = Random(number("START").unwrap_or(0xf175));
    for _ in 0..cases() {
        let span = 1 + random.below(16) as u8;
        let all: Vec<u8> = (1..9).collect();
        let file = row_plan(&[entry(0, 0, span, &all)], &six(&mut random));
        all.iter()
            .for_each(|&target| check_lengths(&file, span, target));
    }
}

#[test]
fn lengths_that_fit_with_replies_as_the_model_has_them() {
    let mut random = Random(number("START").unwrap_or(0xf175));
    for _ in 0..cases() {
        let span = 1 + random.below(16) as u8;
        let (command, back) = (random.below(8) as u8, random.below(8) as u8);
        let file = all_ways(&[
            path(0, 1, &way(command)),
            entry(0, 0, span, &[1]),
            six(&mut random),
            reply(0, 1, &way_back(back)),
        ]);
        check_lengths(&file, span, 1);
    }
}

/// Around the longest that fits, from 0 to this target by an entry of this span at slot 0.
fn check_lengths(file: &[u8], span: u8, target: u8) {
    let plan = ModelPlan::judge(file).unwrap();
    let most = longest(&plan, 0, span, target);
    for length in [0, most.saturating_sub(1), most, most + 1] {
        let request = Event::Request {
            initiator: 0,
            target,
            kind: 0,
            length,
        };
        let fits = plan.fits(0, span, target, length);
        let mut driver = Driver::new(file);
        let answer = driver.step(request);
        assert_eq!(answer.number() == 0, fits, "{file:?} {target} {length}");
        // What is taken starts where the entry stands.
        let started = driver.time_code(0, 0).len();
        assert_eq!(started == 1, fits);
    }
}

#[test]
fn ninth_initiators_and_129th_paths() {
    let mut random = Random(99);
    let mut seen = BTreeSet::new();
    for _ in 0..40 {
        let mut nodes: Vec<u8> = (0..30).collect();
        random.shuffle(&mut nodes);
        let mut fields: Vec<Vec<u8>> = nodes.iter().map(|&node| device(node, 0)).collect();
        fields.push(device(50, 1));
        fields.extend(nodes.iter().map(|&node| link(node, node, 50)));
        let initiators = &nodes[..7 + random.below(3)];
        let mut paths = Vec::new();
        for &initiator in initiators {
            for &target in &nodes[10..26 + random.below(2)] {
                paths.push(path(initiator, target, &[initiator, target]));
            }
        }
        random.shuffle(&mut paths);
        fields.extend(paths);
        fields.push(entry(nodes[0], 0, 1, &[nodes[10]]));
        fields.push(intervals(1, 1));
        let mut driver = Driver::cleared();
        seen.insert(load(&mut driver, &mut Model::new(), &fields.concat()));
    }
    assert_eq!(seen, BTreeSet::from([0, 9]));
}
