//! Writing the plan out.

use crate::bits::{holds, Members};
use crate::few;
use crate::plan::{Plan, Shape, Times, Walk, NUMBERS};
use crate::sheet::Latencies;
use core::mem::take;

/// Fills `out`, which has exactly the plan's size.
pub(crate) fn write_out(plan: &Plan, out: &mut [u8]) {
    let mut writer = Writer { rest: out };
    for device in Members(plan.devices) {
        writer.bytes([1, 0, 2, device, holds(plan.routers, device).into()]);
    }
    for link in Members(plan.links) {
        let ends = plan.ends[usize::from(link)];
        let smaller = ends.trailing_zeros() as u8;
        let greater = 63 - ends.leading_zeros() as u8;
        writer.bytes([2, 0, 3, link, smaller, greater]);
    }
    for (row, &initiator) in plan.initiators().iter().enumerate() {
        let (targets, walks) = (plan.reached[row], &plan.walks[row]);
        write_walks(3, initiator, targets, walks, &mut writer);
    }
    for (row, &initiator) in plan.initiators().iter().enumerate() {
        write_entries(plan, row, initiator, &mut writer);
    }
    writer.bytes([5, 0, 8]);
    writer.bytes(plan.least.to_be_bytes());
    writer.bytes(plan.greatest.to_be_bytes());
    if let Some(times) = plan.times {
        write_times(times, &mut writer);
    }
    for (row, &initiator) in plan.initiators().iter().enumerate() {
        let (targets, walks) = (plan.replied[row], &plan.replies[row]);
        write_walks(7, initiator, targets, walks, &mut writer);
    }
}

/// The paths or replies of an initiator with these targets.
#[inline(always)]
fn write_walks(tag: u8, initiator: u8, targets: u64, walks: &[Walk; NUMBERS], writer: &mut Writer) {
    for target in Members(targets) {
        let walk = walks[usize::from(target)];
        let count = walk.len();
        writer.bytes([tag, 0, 2 + count, initiator, target]);
        writer.numbers(count, walk.links());
    }
}

#[inline(always)]
fn write_entries(plan: &Plan, row: usize, initiator: u8, writer: &mut Writer) {
    for slot in Members(plan.slots[row]) {
        let Shape { span, count } = plan.shapes[usize::from(slot)][row];
        writer.bytes([4, 0, 3 + count, initiator, slot, span]);
        let mut targets = plan.targets[usize::from(slot)][row];
        writer.numbers(count, || {
            let target = targets.trailing_zeros();
            targets &= targets.wrapping_sub(1);
            target as u8
        });
    }
}

fn write_times(times: Times, writer: &mut Writer) {
    let Latencies { a, d, f, g } = times.latencies;
    writer.bytes([6, 0, 22]);
    writer.bytes(times.rate.to_be_bytes());
    for time in [a, d, f, g, times.slot_length] {
        writer.bytes(time.to_be_bytes());
    }
}

struct Writer<'a> {
    rest: &'a mut [u8],
}

impl Writer<'_> {
    #[inline(always)]
    fn bytes<const N: usize>(&mut self, bytes: [u8; N]) {
        if let Some((place, rest)) = take(&mut self.rest).split_first_chunk_mut() {
            *place = bytes;
            self.rest = rest;
        }
    }

    #[inline(always)]
    fn numbers(&mut self, count: u8, next: impl FnMut() -> u8) {
        if let Some((room, rest)) = take(&mut self.rest).split_at_mut_checked(count.into()) {
            few::fill(room, next);
            self.rest = rest;
        }
    }
}
