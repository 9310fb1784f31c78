//! Plans with no entry: verdict 15, and no plan in the box.

mod common;

use common::{busy, first, plan_a, smallest, times, under, INTERVALS};
use spwd::{Event, Fault, Plan, Refusal, Spwd, Verdict, READ, RECORDS_ROOM, WRITTEN_MOST};

/// Field 06 with slots of this length.
fn slots_of(slot_length: u32) -> Vec<u8> {
    times(200, [5_000, 5_000, 5_000, 5_000, slot_length])
}

/// Timing alone, and the network of plan A with timing; then both with slot times.
fn files() -> [Vec<u8>; 4] {
    let timed = |file: Vec<u8>| [file, slots_of(39_450)].concat();
    let (alone, network) = (INTERVALS.to_vec(), plan_a(&[]));
    [alone.clone(), network.clone(), timed(alone), timed(network)]
}

#[track_caller]
fn prints(file: &[u8], line: &str) {
    assert_eq!(Verdict::from(Spwd::new().load(file)).to_string(), line);
}

#[test]
fn the_place_is_the_file_length() {
    for (file, place) in files().iter().zip([11, 101, 36, 126]) {
        let number = Verdict::NO_ENTRY;
        assert_eq!(Spwd::new().load(file), Err(Fault::File { number, place }));
        prints(file, &format!("REFUSED 15 {place}"));
    }
}

/// Whatever is said of a field comes first.
#[test]
fn behind_the_fields() {
    for (file, last) in files().iter().zip([0, 90, 11, 101]) {
        let length = file.len();
        prints(&file[..length - 1], &format!("REFUSED 2 {last}"));
        let unknown = [file, &[8, 0, 0][..]].concat();
        prints(&unknown, &format!("REFUSED 3 {length}"));
        let second = [file, &INTERVALS[..]].concat();
        prints(&second, &format!("REFUSED 4 {length}"));
    }
}

/// So does that there is no timing, with slot times or without.
#[test]
fn behind_the_timing() {
    let network = plan_a(&[]);
    let network = &network[..network.len() - INTERVALS.len()];
    for file in [&[][..], network] {
        prints(file, &format!("REFUSED 12 {}", file.len()));
        let timed = [file, &slots_of(39_450)].concat();
        prints(&timed, &format!("REFUSED 12 {}", timed.len()));
    }
}

/// One entry is enough, also if the slot times never permit what it has.
#[test]
fn one_entry() {
    prints(&smallest(), "ACCEPTED 2 1 1 1");
    let never = [smallest(), slots_of(0)].concat();
    prints(&never, "ACCEPTED 2 1 1 1");
    let refused = under(&never).request(1, 2, READ, 0);
    assert_eq!(refused, Err(Refusal::NOT_PERMITTED));
}

/// Every event is refused for that, and writing out.
#[track_caller]
fn has_no_plan(spwd: &mut Spwd) {
    let time_code = Event::TimeCode { byte: 1, clock: 7 };
    let request = Event::Request {
        initiator: 1,
        target: 3,
        kind: READ,
        length: 1,
    };
    let reply = Event::Reply {
        initiator: 1,
        transaction: 0,
        status: 0,
    };
    for event in [time_code, request, reply, Event::Reading { clock: 7 }] {
        let answer = spwd.step(event, &mut [0; RECORDS_ROOM]);
        assert_eq!(answer, Err(Refusal::NO_PLAN));
    }
    let written = spwd.write_out(&mut [0; WRITTEN_MOST]);
    assert_eq!(written, Err(Refusal::NO_PLAN));
    assert!(spwd.is_blank());
}

/// Also of a plan that the box was under before, nothing is left.
#[test]
fn the_box_is_that_of_a_clear() {
    for file in files() {
        for mut spwd in [Spwd::new(), busy()] {
            assert!(spwd.load(&file).is_err());
            assert_eq!(spwd, Spwd::new());
            has_no_plan(&mut spwd);
            spwd.load(&first()).unwrap();
            assert_eq!(spwd, under(&first()));
        }
    }
}

/// Nor does any box hold such a file's plan, and the memory that it is read into has none.
#[test]
fn no_box_holds_it() {
    for file in files() {
        for spwd in [Spwd::new(), busy()] {
            let mut other = spwd.plan().clone();
            assert!(!spwd.holds(&file, &mut other));
            assert_eq!(other, Plan::new());
        }
    }
}
