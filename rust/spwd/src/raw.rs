//! The functions of the archive, and all unsafe code: each call hands on references and slices as the pointers that C takes.
//!
//! Why that is safe: the functions need no precondition (none has a `requires`) and are proved to stay within the arrays and slices
//! that they are lent; they keep no pointer, and references of Rust are valid, aligned, not null and, where one is `&mut`, apart from
//! each other. A slice crosses as its pointer and its length; an empty one has a pointer that is not null.

use crate::plan::Plan;
use crate::watchdog::Watchdog;
use crate::LINE_ROOM;
use core::mem::MaybeUninit;

type Sets = [u64; 3];
type Ends = [u8; 128];
type Rows = [u8; 8];
type Reach = [u64; 8];
type Paths = [u8; 2816];
type Spans = [u8; 512];
type Aims = [u64; 1152];
type Numbers = [u32; 524];

/// Rows of the initiators: numbers, lines and live transactions.
pub(crate) type Run = [u64; 96];
/// The last accepted time-code.
pub(crate) type Last = [u8; 1];
/// Room for the numbers of an answer: every event stores all eight. So aligned it is within one line of the cache wherever the stack lies.
#[repr(C, align(32))]
struct Answer(MaybeUninit<[u32; 8]>);

extern "C" {
    fn spwd_c_version() -> u32;
    fn spwd_c_clear(
        sets: &mut Sets,
        ends: &mut Ends,
        rows: &mut Rows,
        reach: &mut Reach,
        paths: &mut Paths,
        spans: &mut Spans,
        aims: &mut Aims,
        numbers: &mut Numbers,
        run: &mut Run,
        last: &mut Last,
        watchdog: &mut Watchdog,
    );
    fn spwd_c_load(
        file: *const u8,
        size: usize,
        sets: &mut Sets,
        ends: &mut Ends,
        rows: &mut Rows,
        reach: &mut Reach,
        paths: &mut Paths,
        spans: &mut Spans,
        aims: &mut Aims,
        numbers: &mut Numbers,
        run: &mut Run,
        last: &mut Last,
        watchdog: &mut Watchdog,
        verdict: &mut [u32; 5],
    );
    fn spwd_c_time_code(
        spans: &Spans,
        aims: &Aims,
        numbers: &Numbers,
        run: &mut Run,
        last: &mut Last,
        watchdog: &mut Watchdog,
        byte: u8,
        clock: u32,
        records: *mut u8,
        room: usize,
        answer: &mut Answer,
    );
    fn spwd_c_request(
        rows: &Rows,
        aims: &Aims,
        numbers: &Numbers,
        run: &mut Run,
        initiator: u8,
        target: u8,
        kind: u8,
        length: u16,
        answer: &mut Answer,
    );
    fn spwd_c_reply(
        rows: &Rows,
        numbers: &Numbers,
        run: &mut Run,
        initiator: u8,
        transaction: u16,
        status: u8,
        answer: &mut Answer,
    );
    fn spwd_c_reading(numbers: &Numbers, watchdog: &mut Watchdog, clock: u32, answer: &mut Answer);
    fn spwd_c_next(
        rows: &Rows,
        aims: &Aims,
        numbers: &Numbers,
        initiator: u8,
        target: u8,
        length: u16,
        slot: u8,
        answer: &mut [u32; 2],
    );
    fn spwd_c_write_out(
        sets: &Sets,
        ends: &Ends,
        rows: &Rows,
        paths: &Paths,
        spans: &Spans,
        aims: &Aims,
        numbers: &Numbers,
        out: *mut u8,
        room: usize,
        answer: &mut [u32; 2],
    );
    fn spwd_c_print(verdict: &[u32; 5], line: &mut [u8; LINE_ROOM]) -> usize;
    fn spwd_c_sheet(
        command_routers: u8,
        reply_routers: u8,
        rate: u16,
        length: u16,
        latencies: &[u32; 4],
        answer: &mut [u32; 7],
    );
    fn spwd_c_is_blank(
        sets: &Sets,
        ends: &Ends,
        rows: &Rows,
        reach: &Reach,
        paths: &Paths,
        spans: &Spans,
        aims: &Aims,
        numbers: &Numbers,
        run: &Run,
        last: &Last,
        watchdog: &Watchdog,
    ) -> u32;
    fn spwd_c_holds(
        file: *const u8,
        size: usize,
        sets: &Sets,
        ends: &Ends,
        rows: &Rows,
        reach: &Reach,
        paths: &Paths,
        spans: &Spans,
        aims: &Aims,
        numbers: &Numbers,
        other_sets: &mut Sets,
        other_ends: &mut Ends,
        other_rows: &mut Rows,
        other_reach: &mut Reach,
        other_paths: &mut Paths,
        other_spans: &mut Spans,
        other_aims: &mut Aims,
        other_numbers: &mut Numbers,
    ) -> u32;
}

#[inline]
pub(crate) fn version() -> u32 {
    // SAFETY: it takes nothing and answers a number.
    unsafe { spwd_c_version() }
}

#[inline]
pub(crate) fn clear(plan: &mut Plan, run: &mut Run, last: &mut Last, watchdog: &mut Watchdog) {
    // SAFETY: references alone, each of the size that is declared.
    unsafe {
        spwd_c_clear(
            &mut plan.sets,
            &mut plan.ends,
            &mut plan.rows,
            &mut plan.reach,
            &mut plan.paths,
            &mut plan.spans,
            &mut plan.aims,
            &mut plan.numbers,
            run,
            last,
            watchdog,
        )
    }
}

/// The verdict's number, then its place or counts.
#[inline]
pub(crate) fn load(
    file: &[u8],
    plan: &mut Plan,
    run: &mut Run,
    last: &mut Last,
    watchdog: &mut Watchdog,
) -> [u32; 5] {
    let mut verdict = [0; 5];
    // SAFETY: pointer and length are those of one slice, which is only read; the rest are references.
    unsafe {
        spwd_c_load(
            file.as_ptr(),
            file.len(),
            &mut plan.sets,
            &mut plan.ends,
            &mut plan.rows,
            &mut plan.reach,
            &mut plan.paths,
            &mut plan.spans,
            &mut plan.aims,
            &mut plan.numbers,
            run,
            last,
            watchdog,
            &mut verdict,
        )
    }
    verdict
}

#[inline]
pub(crate) fn time_code(
    plan: &Plan,
    run: &mut Run,
    last: &mut Last,
    watchdog: &mut Watchdog,
    byte: u8,
    clock: u32,
    records: &mut [u8],
) -> [u32; 8] {
    let mut answer = Answer(MaybeUninit::uninit());
    // SAFETY: pointer and length are those of one slice that is lent to be written; the rest are numbers and references.
    // The call stores the whole answer.
    unsafe {
        spwd_c_time_code(
            &plan.spans,
            &plan.aims,
            &plan.numbers,
            run,
            last,
            watchdog,
            byte,
            clock,
            records.as_mut_ptr(),
            records.len(),
            &mut answer,
        );
        answer.0.assume_init()
    }
}

#[inline]
pub(crate) fn request(
    plan: &Plan,
    run: &mut Run,
    initiator: u8,
    target: u8,
    kind: u8,
    length: u16,
) -> [u32; 8] {
    let mut answer = Answer(MaybeUninit::uninit());
    // SAFETY: numbers, and references of the sizes that are declared. The call stores the whole answer.
    unsafe {
        spwd_c_request(
            &plan.rows,
            &plan.aims,
            &plan.numbers,
            run,
            initiator,
            target,
            kind,
            length,
            &mut answer,
        );
        answer.0.assume_init()
    }
}

#[inline]
pub(crate) fn reply(
    plan: &Plan,
    run: &mut Run,
    initiator: u8,
    transaction: u16,
    status: u8,
) -> [u32; 8] {
    let mut answer = Answer(MaybeUninit::uninit());
    // SAFETY: numbers, and references of the sizes that are declared. The call stores the whole answer.
    unsafe {
        spwd_c_reply(
            &plan.rows,
            &plan.numbers,
            run,
            initiator,
            transaction,
            status,
            &mut answer,
        );
        answer.0.assume_init()
    }
}

#[inline]
pub(crate) fn reading(plan: &Plan, watchdog: &mut Watchdog, clock: u32) -> [u32; 8] {
    let mut answer = Answer(MaybeUninit::uninit());
    // SAFETY: numbers, and references of the sizes that are declared. The call stores the whole answer.
    unsafe {
        spwd_c_reading(&plan.numbers, watchdog, clock, &mut answer);
        answer.0.assume_init()
    }
}

/// Number and count.
#[inline]
pub(crate) fn next(plan: &Plan, initiator: u8, target: u8, length: u16, slot: u8) -> [u32; 2] {
    let mut answer = [0; 2];
    // SAFETY: numbers, and references of the sizes that are declared.
    unsafe {
        spwd_c_next(
            &plan.rows,
            &plan.aims,
            &plan.numbers,
            initiator,
            target,
            length,
            slot,
            &mut answer,
        )
    }
    answer
}

/// Number and size.
#[inline]
pub(crate) fn write_out(plan: &Plan, out: &mut [u8]) -> [u32; 2] {
    let mut answer = [0; 2];
    // SAFETY: pointer and length are those of one slice that is lent to be written; the rest are references.
    unsafe {
        spwd_c_write_out(
            &plan.sets,
            &plan.ends,
            &plan.rows,
            &plan.paths,
            &plan.spans,
            &plan.aims,
            &plan.numbers,
            out.as_mut_ptr(),
            out.len(),
            &mut answer,
        )
    }
    answer
}

/// How many bytes the line has.
#[inline]
pub(crate) fn print(verdict: &[u32; 5], line: &mut [u8; LINE_ROOM]) -> usize {
    // SAFETY: references alone, each of the size that is declared.
    unsafe { spwd_c_print(verdict, line) }
}

/// The number, the total, and the five terms that are worked out.
#[inline]
pub(crate) fn sheet(
    [command, reply]: [u8; 2],
    rate: u16,
    length: u16,
    latencies: &[u32; 4],
) -> [u32; 7] {
    let mut answer = [0; 7];
    // SAFETY: numbers, and references of the sizes that are declared.
    unsafe { spwd_c_sheet(command, reply, rate, length, latencies, &mut answer) }
    answer
}

#[inline]
pub(crate) fn is_blank(plan: &Plan, run: &Run, last: &Last, watchdog: &Watchdog) -> bool {
    // SAFETY: references alone, each of the size that is declared.
    let blank = unsafe {
        spwd_c_is_blank(
            &plan.sets,
            &plan.ends,
            &plan.rows,
            &plan.reach,
            &plan.paths,
            &plan.spans,
            &plan.aims,
            &plan.numbers,
            run,
            last,
            watchdog,
        )
    };
    blank != 0
}

#[inline]
pub(crate) fn holds(file: &[u8], plan: &Plan, other: &mut Plan) -> bool {
    // SAFETY: pointer and length are those of one slice, which is only read; the rest are references.
    let holds = unsafe {
        spwd_c_holds(
            file.as_ptr(),
            file.len(),
            &plan.sets,
            &plan.ends,
            &plan.rows,
            &plan.reach,
            &plan.paths,
            &plan.spans,
            &plan.aims,
            &plan.numbers,
            &mut other.sets,
            &mut other.ends,
            &mut other.rows,
            &mut other.reach,
            &mut other.paths,
            &mut other.spans,
            &mut other.aims,
            &mut other.numbers,
        )
    };
    holds != 0
}
