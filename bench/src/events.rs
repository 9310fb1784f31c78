//! Events under the maximal plan: eight initiators, each with an entry of span 1 in every slot. Every number of an event comes out of a
//! black box, since the compiler inlines the reference and would leave out its tests of numbers that it knows.

use crate::sides::{Proved, Reference, Side};
use crate::timing::{by_turns, print_row, Least, ROUNDS};
use compare::large;
use spwd::READ;
use std::array::from_fn;
use std::hint::black_box;

/// So many boxes of a side take the same events: a time is taken over many calls, and what they touch stays in the nearest cache.
const BOXES: usize = 8;
const INITIATORS: usize = 8;
/// How many requests wait for an initiator whose line is full.
const WAITING: usize = 8;
const READINGS: usize = 64;
/// The status of a reply.
const SUCCESS: u8 = 0;

/// The boxes of a side.
struct Events<S> {
    boxes: Vec<S>,
    /// Time-codes so far. Each of them starts one transaction of each initiator, so this is the next one's number too.
    count: u32,
    /// Whether an event was refused or wrote another number of records.
    wrong: bool,
}

impl<S: Side> Events<S> {
    fn under(file: &[u8]) -> Self {
        let mut boxes: Vec<S> = (0..BOXES).map(|_| S::new()).collect();
        let wrong = boxes.iter_mut().any(|one| one.load(file) != 0);
        Self {
            boxes,
            count: 0,
            wrong,
        }
    }

    /// Fills every line.
    fn requests(&mut self) {
        let requests: [(u8, u8, u8, u16); INITIATORS * WAITING] = black_box(from_fn(|index| {
            let (initiator, place) = (index / WAITING, index % WAITING);
            let target = 16 + 6 * initiator + place % 6;
            (initiator as u8, target as u8, READ, 256)
        }));
        for one in &mut self.boxes {
            for &(initiator, target, kind, length) in &requests {
                self.wrong |= one.request(initiator, target, kind, length) != 0;
            }
        }
    }

    /// The next time-code of every box; each is to write so many records.
    fn time_code(&mut self, records: usize) {
        let byte = black_box((self.count % 64) as u8);
        let clock = black_box(self.count.wrapping_mul(100));
        for one in &mut self.boxes {
            self.wrong |= one.time_code(byte, clock) != (0, records as u8);
        }
        self.count += 1;
    }

    /// A reply to every live transaction.
    fn replies(&mut self) {
        let number = (self.count - 1) as u16;
        let replies: [(u8, u16, u8); INITIATORS] =
            black_box(from_fn(|initiator| (initiator as u8, number, SUCCESS)));
        for one in &mut self.boxes {
            for &(initiator, number, status) in &replies {
                self.wrong |= one.reply(initiator, number, status) != 0;
            }
        }
    }

    /// Readings that are not overdue.
    fn readings(&mut self) {
        let last = (self.count - 1).wrapping_mul(100);
        let clocks: [u32; READINGS] = black_box(from_fn(|after| last.wrapping_add(after as u32)));
        for one in &mut self.boxes {
            for &clock in &clocks {
                self.wrong |= one.reading(clock) != 0;
            }
        }
    }

    /// Full lines, then as many time-codes as empty them, with something live before each: it ends eight transactions as late and
    /// starts eight.
    fn late_round(&mut self, taken: &mut Taken) {
        taken.request.take(REQUESTS, || self.requests());
        taken.time_code.take(TIME_CODES, || {
            (0..WAITING).for_each(|_| self.time_code(2 * INITIATORS))
        });
        taken.reading.take(ALL_READINGS, || self.readings());
    }

    /// The same with a reply to each transaction.
    fn answered_round(&mut self, taken: &mut Taken) {
        self.requests();
        for _ in 0..WAITING {
            self.time_code(INITIATORS);
            taken.reply.take(REPLIES, || self.replies());
        }
    }
}

const REQUESTS: usize = BOXES * INITIATORS * WAITING;
const TIME_CODES: usize = BOXES * WAITING;
const REPLIES: usize = BOXES * INITIATORS;
const ALL_READINGS: usize = BOXES * READINGS;

/// The least times of a side.
#[derive(Default)]
struct Taken {
    request: Least,
    time_code: Least,
    reply: Least,
    reading: Least,
}

/// Times all events under the plan, and those that a plan's times bear on under the same with times, and with replies too, and prints
/// their rows.
pub fn print_events(maximal: &[u8]) {
    let timed = large::timed(maximal);
    let replied = large::replied_round(&timed);
    let (ours, theirs) = least_of_events(maximal);
    let (ours_timed, theirs_timed) = least_of_events(&timed);
    let (ours_replied, theirs_replied) = least_of_events(&replied);
    for (name, least, their_least) in [
        (
            "time-code, 8 endings and 8 starts",
            &ours.time_code,
            &theirs.time_code,
        ),
        (
            "time-code, 8 endings and 8 starts, with times",
            &ours_timed.time_code,
            &theirs_timed.time_code,
        ),
        (
            "time-code, 8 endings, 8 starts, times and replies",
            &ours_replied.time_code,
            &theirs_replied.time_code,
        ),
        ("request", &ours.request, &theirs.request),
        (
            "request, with times",
            &ours_timed.request,
            &theirs_timed.request,
        ),
        (
            "request, with times and replies",
            &ours_replied.request,
            &theirs_replied.request,
        ),
        ("reply", &ours.reply, &theirs.reply),
        ("reading", &ours.reading, &theirs.reading),
    ] {
        print_row(name, "", "", least, their_least);
    }
    print_not_permitted("request, refused with 25", maximal);
    print_not_permitted("request, refused with 25, with times", &timed);
    print_not_permitted("request, refused with 25, times and replies", &replied);
}

/// Of both sides under a plan.
fn least_of_events(file: &[u8]) -> (Taken, Taken) {
    let mut ours = Events::<Proved>::under(file);
    let mut theirs = Events::<Reference>::under(file);
    let (mut taken, mut their_taken) = (Taken::default(), Taken::default());
    for _ in 0..ROUNDS {
        ours.answered_round(&mut taken);
        theirs.answered_round(&mut their_taken);
    }
    // Something live for the first time-code to end.
    ours.requests();
    theirs.requests();
    ours.time_code(INITIATORS);
    theirs.time_code(INITIATORS);
    (1..WAITING).for_each(|_| ours.time_code(2 * INITIATORS));
    (1..WAITING).for_each(|_| theirs.time_code(2 * INITIATORS));
    for _ in 0..ROUNDS {
        ours.late_round(&mut taken);
        theirs.late_round(&mut their_taken);
    }
    assert!(!ours.wrong && !theirs.wrong, "an event went wrong");
    (taken, their_taken)
}

/// A request that no entry permits, though its initiator has one in every slot: refused with 25.
fn print_not_permitted(name: &str, file: &[u8]) {
    let (mut ours, mut theirs) = (Proved::new(), Reference::new());
    let loaded = (ours.load(file), theirs.load(file));
    assert_eq!(loaded, (0, 0), "the plan is refused");
    let answers = (
        ours.request(7, 16, READ, 256),
        theirs.request(7, 16, READ, 256),
    );
    assert_eq!(answers, (25, 25), "the request is not refused");
    let (least, their_least) = by_turns(
        || {
            let (initiator, target, kind, length) = black_box((7, 16, READ, 256));
            black_box(black_box(&mut ours).request(initiator, target, kind, length));
        },
        || {
            let (initiator, target, kind, length) = black_box((7, 16, READ, 256));
            black_box(black_box(&mut theirs).request(initiator, target, kind, length));
        },
    );
    print_row(name, "", "", &least, &their_least);
}
