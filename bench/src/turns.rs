//! The next turn of a request. Every number of a question comes out of a black box, as those of an event do.

use crate::sides::{Proved, Reference, Side};
use crate::timing::{print_row, Least, ROUNDS};
use compare::large;
use std::array::from_fn;
use std::hint::black_box;

/// So many boxes of a side are asked, as events are taken.
const BOXES: usize = 8;
const SLOTS: usize = 64;
const QUESTIONS: usize = BOXES * SLOTS;

/// Initiator, target, length and slot; one for every slot.
type Questions = [(u8, u8, u16, u8); SLOTS];

/// Under the maximal plan, where the turn is always in the next slot, the same with times, and with replies too; where one entry stands
/// alone, at slot 0, so that there is every count; and of a target that no entry of the initiator permits.
pub fn print_turns(maximal: &[u8]) {
    let timed = large::timed(maximal);
    let replied = large::replied_round(&timed);
    let turns: Questions = from_fn(|slot| {
        let initiator = slot % 8;
        let target = 16 + 6 * initiator + slot % 6;
        (initiator as u8, target as u8, 256, slot as u8)
    });
    print_next("next", maximal, &turns, 0);
    print_next("next, with times", &timed, &turns, 0);
    print_next("next, with times and replies", &replied, &turns, 0);
    let turns: Questions = from_fn(|slot| (0, 16, 256, slot as u8));
    let one_entry = large::one_entry(maximal);
    print_next("next, one entry, from every slot", &one_entry, &turns, 0);
    let turns: Questions = from_fn(|slot| (7, 16, 256, slot as u8));
    print_next("next, refused with 25", maximal, &turns, 25);
    print_next("next, refused with 25, with times", &timed, &turns, 25);
}

/// Both sides must give the same answers, all of them with this number.
fn print_next(name: &str, file: &[u8], turns: &Questions, number: u8) {
    let (ours, theirs) = (under::<Proved>(file), under::<Reference>(file));
    for (ours, theirs) in ours.iter().zip(&theirs) {
        let answers = answers(ours, turns);
        assert_eq!(answers, self::answers(theirs, turns), "{name}");
        assert!(answers.iter().all(|answer| answer.0 == number), "{name}");
    }
    let (mut least, mut their_least) = (Least::default(), Least::default());
    for _ in 0..ROUNDS {
        least.take(QUESTIONS, || ask(&ours, turns));
        their_least.take(QUESTIONS, || ask(&theirs, turns));
    }
    print_row(name, "", "", &least, &their_least);
}

fn under<S: Side>(file: &[u8]) -> Vec<S> {
    let mut boxes: Vec<S> = (0..BOXES).map(|_| S::new()).collect();
    let accepted = boxes.iter_mut().all(|one| one.load(file) == 0);
    assert!(accepted, "the plan is refused");
    boxes
}

fn answers(side: &impl Side, turns: &Questions) -> [(u8, u8); SLOTS] {
    turns.map(|(initiator, target, length, slot)| side.next(initiator, target, length, slot))
}

fn ask(boxes: &[impl Side], turns: &Questions) {
    let turns = black_box(turns);
    for one in boxes {
        for &(initiator, target, length, slot) in turns {
            black_box(one.next(initiator, target, length, slot));
        }
    }
}
