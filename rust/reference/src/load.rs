//! Reading a plan file and judging it.

use crate::bits::{bit, holds, Members};
use crate::few;
use crate::plan::{Plan, Routers, Shape, Times, Walk, Way, INITIATORS, NUMBERS, SLOTS, SPANS};
use crate::sheet::{in_range, Latencies};
use crate::verdict::{Fault, Verdict};
use core::array::from_fn;

pub(crate) const FILE: usize = 16_384;
const PATHS: u8 = 128;

/// Reads the file into a cleared plan. After a refusal the plan holds what was read so far.
pub(crate) fn load(plan: &mut Plan, file: &[u8]) -> Verdict {
    let mut judge = Judge {
        plan,
        path_count: 0,
        used_links: [[0; NUMBERS]; INITIATORS],
        permitted: [[0; SPANS]; INITIATORS],
        followed: [0; INITIATORS],
        slot_links: [0; SLOTS],
        clashing: 0,
    };
    match judge.file(file) {
        Ok(()) => judge.accept(file),
        Err(refused) => refused,
    }
}

/// A fault and how many bytes the file has from its field on.
struct Refused {
    fault: Fault,
    left: usize,
}

impl Refused {
    fn at(rest: &[u8], fault: Fault) -> Self {
        let left = rest.len();
        Self { fault, left }
    }

    fn verdict(self, file: &[u8]) -> Verdict {
        let place = (file.len() - self.left) as u16;
        let fault = self.fault;
        Verdict::Refused { fault, place }
    }
}

/// The first field's tag and content and the bytes after it; none if it is cut short.
#[inline(always)]
fn first_field(bytes: &[u8]) -> Option<(u8, &[u8], &[u8])> {
    let (&[tag, high, low], rest) = bytes.split_first_chunk()?;
    let length = u16::from_be_bytes([high, low]);
    let (content, rest) = rest.split_at_checked(usize::from(length))?;
    Some((tag, content, rest))
}

/// Judges the fields in front that have this tag and gives the bytes after them.
#[inline(always)]
fn each_field(
    mut bytes: &[u8],
    tag: u8,
    mut judge: impl FnMut(&[u8]) -> Result<(), Fault>,
) -> Result<&[u8], Refused> {
    while let Some((found, content, rest)) = first_field(bytes) {
        if found != tag {
            break;
        }
        judge(content).map_err(|fault| Refused::at(bytes, fault))?;
        bytes = rest;
    }
    Ok(bytes)
}

/// The initiator, target and links of a path or a reply.
#[inline(always)]
fn pair_and_links(content: &[u8]) -> Result<(u8, u8, &[u8]), Fault> {
    match *content {
        [initiator, target, ref links @ ..] if (1..=8).contains(&links.len()) => {
            Ok((initiator, target, links))
        }
        _ => Err(Fault::Length),
    }
}

/// The fault of a first field that was not taken when the fields of its tag were.
fn misplaced(bytes: &[u8]) -> Fault {
    match first_field(bytes) {
        None => Fault::Cut,
        Some((1..=7, ..)) => Fault::TagOrder,
        Some(_) => Fault::UnknownTag,
    }
}

struct Judge<'a> {
    plan: &'a mut Plan,
    path_count: u8,
    /// For each row and target the links that a transaction uses: the path's, and those of its reply
    /// as soon as that is read.
    used_links: [[u64; NUMBERS]; INITIATORS],
    /// For each row, at n - 1, the targets of its entries with span n.
    permitted: [[u64; SPANS]; INITIATORS],
    /// For each row the slots its entries cover after their own.
    followed: [u64; INITIATORS],
    /// For each slot the links that entries covering it use.
    slot_links: [u64; SLOTS],
    /// The slots in which two entries use the same link.
    clashing: u64,
}

impl Judge<'_> {
    fn file(&mut self, file: &[u8]) -> Result<(), Verdict> {
        if file.len() > FILE {
            return Err(Refused::at(file, Fault::FileTooLong).verdict(file));
        }
        self.fields(file).map_err(|refused| refused.verdict(file))?;
        self.overlap()?;
        if self.has_reply() {
            self.use_links_again();
        }
        self.clash()
    }

    fn fields(&mut self, file: &[u8]) -> Result<(), Refused> {
        let rest = each_field(file, 1, |content| self.device(content))?;
        let rest = each_field(rest, 2, |content| self.link(content))?;
        let rest = self.paths(rest)?;
        let rest = self.entries(rest)?;
        let rest = each_field(rest, 5, |content| self.intervals(content))?;
        let rest = each_field(rest, 6, |content| self.times(content))?;
        let rest = self.replies(rest)?;
        if !rest.is_empty() {
            return Err(Refused::at(rest, misplaced(rest)));
        }
        if !self.has_intervals() {
            return Err(Refused::at(rest, Fault::NoIntervals));
        }
        if !self.has_entry() {
            return Err(Refused::at(rest, Fault::NoEntry));
        }
        Ok(())
    }

    #[inline(never)]
    fn paths<'b>(&mut self, bytes: &'b [u8]) -> Result<&'b [u8], Refused> {
        each_field(bytes, 3, |content| self.path(content))
    }

    #[inline(never)]
    fn entries<'b>(&mut self, bytes: &'b [u8]) -> Result<&'b [u8], Refused> {
        each_field(bytes, 4, |content| self.entry(content))
    }

    #[inline(never)]
    fn replies<'b>(&mut self, bytes: &'b [u8]) -> Result<&'b [u8], Refused> {
        each_field(bytes, 7, |content| self.reply(content))
    }

    #[inline(always)]
    fn nodes(&self) -> u64 {
        self.plan.devices & !self.plan.routers
    }

    fn has_intervals(&self) -> bool {
        self.plan.greatest != 0
    }

    fn has_entry(&self) -> bool {
        self.plan.slots != [0; INITIATORS]
    }

    fn has_reply(&self) -> bool {
        self.plan.replied != [0; INITIATORS]
    }

    #[inline(always)]
    fn device(&mut self, content: &[u8]) -> Result<(), Fault> {
        let &[device, kind] = content else {
            return Err(Fault::Length);
        };
        if device > 63 || kind > 1 {
            return Err(Fault::Range);
        }
        if holds(self.plan.devices, device) {
            return Err(Fault::GivenBefore);
        }
        self.plan.devices |= bit(device);
        self.plan.routers |= u64::from(kind) << device;
        Ok(())
    }

    #[inline(always)]
    fn link(&mut self, content: &[u8]) -> Result<(), Fault> {
        let &[link, one, other] = content else {
            return Err(Fault::Length);
        };
        if (link | one | other) > 63 || one == other {
            return Err(Fault::Range);
        }
        if holds(self.plan.links, link) {
            return Err(Fault::GivenBefore);
        }
        let ends = bit(one) | bit(other);
        if ends & !self.plan.devices != 0 {
            return Err(Fault::NotGiven);
        }
        self.plan.links |= bit(link);
        self.plan.ends[usize::from(link)] = ends;
        Ok(())
    }

    #[inline(always)]
    fn path(&mut self, content: &[u8]) -> Result<(), Fault> {
        let (initiator, target, links) = pair_and_links(content)?;
        let trace = Trace::new(initiator, links, &self.plan.ends);
        if (initiator | target | trace.numbers) > 63 || initiator == target {
            return Err(Fault::Range);
        }
        let row = self.plan.row(initiator);
        if row.is_some_and(|row| holds(self.plan.reached[row], target)) {
            return Err(Fault::GivenBefore);
        }
        self.all_given(initiator, target, &trace)?;
        let initiators = usize::from(self.plan.initiator_count);
        if self.path_count == PATHS || row.is_none() && initiators == INITIATORS {
            return Err(Fault::TooMany);
        }
        if !trace.is_walk(initiator, target, self.plan.routers) {
            return Err(Fault::NoWalk);
        }
        let row = row.unwrap_or_else(|| self.add_initiator(initiator));
        self.plan.reached[row] |= bit(target);
        self.plan.walks[row][usize::from(target % 64)] = trace.walk;
        // Without a reply of its own the answer goes back over the same links.
        let routers = links.len() as u8 - 1;
        self.plan.ways[row][usize::from(target % 64)] = Way::new(0, Routers::new(routers, routers));
        self.used_links[row][usize::from(target % 64)] = trace.links;
        self.path_count += 1;
        Ok(())
    }

    /// A reply, whose links lead from the target back to the initiator.
    #[inline(always)]
    fn reply(&mut self, content: &[u8]) -> Result<(), Fault> {
        let (initiator, target, links) = pair_and_links(content)?;
        let trace = Trace::new(target, links, &self.plan.ends);
        if (initiator | target | trace.numbers) > 63 || initiator == target {
            return Err(Fault::Range);
        }
        let row = self.plan.row(initiator);
        if row.is_some_and(|row| holds(self.plan.replied[row], target)) {
            return Err(Fault::GivenBefore);
        }
        self.all_given(initiator, target, &trace)?;
        if !trace.is_walk(target, initiator, self.plan.routers) {
            return Err(Fault::NoWalk);
        }
        let with_path = |&row: &usize| holds(self.plan.reached[row], target);
        let row = row.filter(with_path).ok_or(Fault::NoPath)?;
        self.plan.replied[row] |= bit(target);
        self.plan.replies[row][usize::from(target % 64)] = trace.walk;
        let way = &mut self.plan.ways[row][usize::from(target % 64)];
        let command_routers = way.routers().command();
        *way = Way::new(0, Routers::new(command_routers, links.len() as u8 - 1));
        self.used_links[row][usize::from(target % 64)] |= trace.links;
        Ok(())
    }

    /// Verdict 8 on a path or a reply.
    #[inline(always)]
    fn all_given(&self, initiator: u8, target: u8, trace: &Trace) -> Result<(), Fault> {
        let ends = bit(initiator) | bit(target);
        if ends & !self.nodes() != 0 || trace.links & !self.plan.links != 0 {
            return Err(Fault::NotGiven);
        }
        Ok(())
    }

    /// Gives a new initiator its row, moving the rows of greater ones up.
    #[cold]
    fn add_initiator(&mut self, initiator: u8) -> usize {
        let plan = &mut *self.plan;
        let count = usize::from(plan.initiator_count);
        let row = plan.initiators[..count]
            .iter()
            .position(|&other| other > initiator)
            .unwrap_or(count);
        plan.initiators[row..=count].rotate_right(1);
        plan.reached[row..=count].rotate_right(1);
        plan.walks[row..=count].rotate_right(1);
        plan.ways[row..=count].rotate_right(1);
        self.used_links[row..=count].rotate_right(1);
        plan.initiators[row] = initiator;
        plan.initiator_count += 1;
        for (rank, &device) in (1..).zip(&plan.initiators[..=count]) {
            plan.ranks[usize::from(device)] = rank;
        }
        row
    }

    #[inline(always)]
    fn entry(&mut self, content: &[u8]) -> Result<(), Fault> {
        let &[initiator, slot, span, ref targets @ ..] = content else {
            return Err(Fault::Length);
        };
        if !(1..=16).contains(&targets.len()) {
            return Err(Fault::Length);
        }
        let row = self.plan.row(initiator);
        let targets = Targets::new(targets, &self.used_links[row.unwrap_or(0)]);
        if (initiator | slot | targets.numbers) > 63 || !(1..=16).contains(&span) {
            return Err(Fault::Range);
        }
        match row {
            // Targets with a path are nodes, and so is an initiator.
            Some(row)
                if !targets.repeat()
                    && !holds(self.plan.slots[row], slot)
                    && targets.set & !self.plan.reached[row] == 0 =>
            {
                self.add_entry(row, slot, span, &targets);
                Ok(())
            }
            _ => Err(self.entry_fault(row, initiator, slot, &targets)),
        }
    }

    /// The fault of an entry that has no number out of range.
    #[cold]
    fn entry_fault(&self, row: Option<usize>, initiator: u8, slot: u8, targets: &Targets) -> Fault {
        if targets.repeat() || row.is_some_and(|row| holds(self.plan.slots[row], slot)) {
            Fault::GivenBefore
        } else if (bit(initiator) | targets.set) & !self.nodes() != 0 {
            Fault::NotGiven
        } else {
            Fault::NoPath
        }
    }

    #[inline(always)]
    fn add_entry(&mut self, row: usize, slot: u8, span: u8, targets: &Targets) {
        let plan = &mut *self.plan;
        let index = usize::from(slot % 64);
        let count = targets.count;
        plan.slots[row] |= bit(slot);
        plan.targets[index][row] = targets.set;
        plan.shapes[index][row] = Shape { span, count };
        self.permitted[row][usize::from(span - 1) % SPANS] |= targets.set;
        self.followed[row] |= followed(slot, span);
        self.cover(slot, span, targets.links);
        self.plan.add_turn(row, slot, span, targets.listed);
    }

    /// An entry of this span, standing here, uses these links.
    #[inline(always)]
    fn cover(&mut self, slot: u8, span: u8, links: u64) {
        self.use_links(slot, links);
        for later in slot + 1..slot + span {
            self.use_links(later, links);
        }
    }

    #[inline(always)]
    fn use_links(&mut self, slot: u8, links: u64) {
        let used = &mut self.slot_links[usize::from(slot % 64)];
        self.clashing |= u64::from(*used & links != 0) << (slot % 64);
        *used |= links;
    }

    /// What the slots use with all replies, none of which was read before the entries.
    #[inline(never)]
    fn use_links_again(&mut self) {
        self.slot_links = [0; SLOTS];
        self.clashing = 0;
        for row in 0..INITIATORS.min(self.plan.initiator_count.into()) {
            for slot in Members(self.plan.slots[row]) {
                let Shape { span, .. } = self.plan.shapes[usize::from(slot)][row];
                self.cover(slot, span, self.entry_links(row, slot));
            }
        }
    }

    /// The links used by the row's entry that stands at this slot.
    #[inline(always)]
    fn entry_links(&self, row: usize, slot: u8) -> u64 {
        let targets = Members(self.plan.targets[usize::from(slot % 64)][row]);
        targets.fold(0, |links, target| {
            links | self.used_links[row][usize::from(target)]
        })
    }

    fn intervals(&mut self, content: &[u8]) -> Result<(), Fault> {
        if self.has_intervals() {
            return Err(Fault::TagOrder);
        }
        let &[a, b, c, d, e, f, g, h] = content else {
            return Err(Fault::Length);
        };
        let least = u32::from_be_bytes([a, b, c, d]);
        let greatest = u32::from_be_bytes([e, f, g, h]);
        if !(1..=0x7fff_ffff).contains(&greatest) || least > greatest {
            return Err(Fault::Range);
        }
        self.plan.least = least;
        self.plan.greatest = greatest;
        Ok(())
    }

    fn times(&mut self, content: &[u8]) -> Result<(), Fault> {
        if self.plan.times.is_some() {
            return Err(Fault::TagOrder);
        }
        let Some((&rate, times)) = content.split_first_chunk() else {
            return Err(Fault::Length);
        };
        let Ok(times) = <&[u8; 20]>::try_from(times) else {
            return Err(Fault::Length);
        };
        let rate = u16::from_be_bytes(rate);
        let four = |place| from_fn(|byte| times[4 * place + byte]);
        let [a, d, f, g, slot_length] = from_fn(|place| u32::from_be_bytes(four(place)));
        if !in_range(rate, &[a, d, f, g, slot_length]) {
            return Err(Fault::Range);
        }
        self.plan.times = Some(Times {
            rate,
            latencies: Latencies { a, d, f, g },
            slot_length,
        });
        Ok(())
    }

    /// Verdict 13.
    fn overlap(&self) -> Result<(), Verdict> {
        for (row, &initiator) in self.plan.initiators().iter().enumerate() {
            let slots = self.plan.slots[row];
            if self.followed[row] & slots == 0 {
                continue;
            }
            let covers_another = |&slot: &u8| {
                let Shape { span, .. } = self.plan.shapes[usize::from(slot)][row];
                followed(slot, span) & slots != 0
            };
            if let Some(slot) = Members(slots).find(covers_another) {
                return Err(Verdict::Overlap { initiator, slot });
            }
        }
        Ok(())
    }

    /// Verdict 14. No initiator has two entries covering one slot here, as `overlap` has passed, so
    /// the entries in a clashing slot are those of different initiators.
    fn clash(&self) -> Result<(), Verdict> {
        if self.clashing == 0 {
            return Ok(());
        }
        let slot = self.clashing.trailing_zeros() as u8;
        let initiators = self.plan.initiators();
        let links: [u64; INITIATORS] = from_fn(|row| self.links_in(row, slot));
        for (one, &smaller) in initiators.iter().enumerate() {
            for (other, &greater) in initiators.iter().enumerate().skip(one + 1) {
                let common = links[one] & links[other];
                if common != 0 {
                    let link = common.trailing_zeros() as u8;
                    return Err(Verdict::Clash {
                        slot,
                        smaller,
                        greater,
                        link,
                    });
                }
            }
        }
        Ok(())
    }

    /// The links used by the row's entry that covers this slot.
    fn links_in(&self, row: usize, slot: u8) -> u64 {
        (0..16u8)
            .map(|back| (back, slot.wrapping_sub(back) % 64))
            .find(|&(back, stand)| self.plan.shapes[usize::from(stand)][row].span > back)
            .map_or(0, |(_, stand)| self.entry_links(row, stand))
    }

    fn accept(&mut self, file: &[u8]) -> Verdict {
        let plan = &mut *self.plan;
        for row in 0..INITIATORS.min(plan.initiator_count.into()) {
            plan.complete_turns(row);
            // The longest span of a target comes last and stays.
            for (span, &targets) in (1..).zip(&self.permitted[row]) {
                Members(targets).for_each(|target| plan.permit(row, target, span));
            }
        }
        // Writing out puts the same fields in another order, each as long as it was.
        plan.size = file.len() as u16;
        plan.loaded = true;
        Verdict::Accepted {
            devices: plan.devices.count_ones() as u8,
            links: plan.links.count_ones() as u8,
            paths: self.path_count,
            entries: plan
                .slots
                .iter()
                .map(|slots| slots.count_ones() as u16)
                .sum(),
        }
    }
}

/// The slots that an entry covers after its own.
#[inline(always)]
fn followed(slot: u8, span: u8) -> u64 {
    let count = u32::from(span).saturating_sub(1) % 64;
    ((1u64 << count) - 1).rotate_left(u32::from(slot) + 1)
}

/// Where the links of a path or a reply lead, whatever they are.
struct Trace {
    /// All link numbers, joined bit by bit.
    numbers: u8,
    links: u64,
    walk: Walk,
    /// The device reached, as a set.
    here: u64,
    met: u64,
    /// Not empty if some link did not lead on or led to a device met before.
    broken: u64,
}

impl Trace {
    #[inline(always)]
    fn new(from: u8, links: &[u8], ends: &[u64; NUMBERS]) -> Self {
        let mut trace = Self {
            numbers: 0,
            links: 0,
            walk: Walk::START,
            here: bit(from),
            met: bit(from),
            broken: 0,
        };
        for &link in links {
            trace.follow(link, ends[usize::from(link % 64)]);
        }
        trace
    }

    #[inline(always)]
    fn follow(&mut self, link: u8, ends: u64) {
        // From a link that does not lead on, the device it should have left remains, and is met.
        let next = self.here ^ ends;
        self.broken |= self.met & next;
        self.numbers |= link;
        self.links |= bit(link);
        self.walk = self.walk.then(link);
        self.here = next;
        self.met |= next;
    }

    #[inline(always)]
    fn is_walk(&self, from: u8, to: u8, routers: u64) -> bool {
        let between = self.met & !bit(from) & !bit(to);
        self.broken == 0 && self.here == bit(to) && between & !routers == 0
    }
}

/// The targets of an entry, whatever they are.
struct Targets<'a> {
    listed: &'a [u8],
    count: u8,
    /// All target numbers, joined bit by bit.
    numbers: u8,
    set: u64,
    /// The links of their paths.
    links: u64,
}

impl<'a> Targets<'a> {
    #[inline(always)]
    fn new(listed: &'a [u8], path_links: &[u64; NUMBERS]) -> Self {
        let mut all = Self {
            listed,
            count: listed.len() as u8,
            numbers: 0,
            set: 0,
            links: 0,
        };
        few::each(listed, |target| {
            all.numbers |= target;
            all.set |= bit(target);
            all.links |= path_links[usize::from(target % 64)];
        });
        all
    }

    #[inline(always)]
    fn repeat(&self) -> bool {
        self.set.count_ones() != u32::from(self.count)
    }
}
