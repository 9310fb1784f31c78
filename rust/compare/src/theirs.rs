//! The reference's answers as the proved box gives them, and its verdicts in document 01's numbers.

use crate::both::Answered;
use crate::sheets::Sheet;
use reference::{Answer, Event, Latencies, Unit, Verdict, Watchdog, WRITTEN_OUT};
use spwd::Ended;

pub fn verdict(verdict: &Verdict) -> [u32; 5] {
    let number = verdict.number().into();
    match *verdict {
        Verdict::Accepted {
            devices,
            links,
            paths,
            entries,
        } => [
            0,
            devices.into(),
            links.into(),
            paths.into(),
            entries.into(),
        ],
        Verdict::Refused { place, .. } => [number, place.into(), 0, 0, 0],
        Verdict::Overlap { initiator, slot } => [number, initiator.into(), slot.into(), 0, 0],
        Verdict::Clash {
            slot,
            smaller,
            greater,
            link,
        } => [
            number,
            slot.into(),
            smaller.into(),
            greater.into(),
            link.into(),
        ],
    }
}

pub fn answer(answer: &Answer) -> Answered {
    match *answer {
        Answer::Refused(refusal) => Err(refusal as u8),
        Answer::Records { count } => Ok(spwd::Answer::Recorded(count)),
        Answer::Taken { number } => Ok(spwd::Answer::Joined(number)),
        Answer::Ended {
            target,
            length,
            status,
            class,
        } => Ok(spwd::Answer::Ended(Ended {
            target,
            length,
            status,
            status_class: class,
        })),
        Answer::Reading { late } => Ok(spwd::Answer::Told(late)),
    }
}

pub fn event(event: spwd::Event) -> Event {
    match event {
        spwd::Event::TimeCode { byte, clock } => Event::TimeCode { byte, clock },
        spwd::Event::Request {
            initiator,
            target,
            kind,
            length,
        } => Event::Request {
            initiator,
            target,
            kind,
            length,
        },
        spwd::Event::Reply {
            initiator,
            transaction,
            status,
        } => Event::Reply {
            initiator,
            number: transaction,
            status,
        },
        spwd::Event::Reading { clock } => Event::Reading { clock },
    }
}

/// The terms, or the number of the refusal.
pub fn sheet(sheet: &Sheet) -> Result<spwd::Sheet, u32> {
    let Sheet {
        command_routers,
        reply_routers,
        rate,
        length,
        latencies: [a, d, f, g],
    } = *sheet;
    let latencies = Latencies { a, d, f, g };
    match reference::sheet(command_routers, reply_routers, rate, length, latencies) {
        Ok(sheet) => Ok(spwd::Sheet {
            total: sheet.total,
            b: sheet.b,
            c: sheet.c,
            e: sheet.e,
            h: sheet.h,
            i: sheet.i,
        }),
        Err(fault) => Err(fault as u32),
    }
}

pub fn watchdog([last, seen, reported, least, greatest]: [u32; 5]) -> Watchdog {
    Watchdog {
        last,
        seen,
        reported,
        least,
        greatest,
    }
}

pub fn five(five: &Watchdog) -> [u32; 5] {
    [
        five.last,
        five.seen,
        five.reported,
        five.least,
        five.greatest,
    ]
}

/// Whether the reference accepts the file.
pub fn accepts(file: &[u8]) -> bool {
    let verdict = Unit::new().load(file, &mut Watchdog::new());
    verdict.number() == 0
}

/// The plan of the file written out, if the reference accepts it.
pub fn canonical(file: &[u8]) -> Option<Vec<u8>> {
    let mut unit = Unit::new();
    unit.load(file, &mut Watchdog::new());
    let mut out = vec![0; WRITTEN_OUT];
    match unit.write_out(&mut out) {
        (0, size) => {
            out.truncate(size);
            Some(out)
        }
        _ => None,
    }
}

/// Whether both have a plan, and write out the same bytes.
pub fn written_alike(unit: &Unit, other: &Unit) -> bool {
    let (mut out, mut other_out) = ([0; WRITTEN_OUT], [0; WRITTEN_OUT]);
    let (number, size) = unit.write_out(&mut out);
    let other_answer = other.write_out(&mut other_out);
    number == 0 && other_answer == (0, size) && out[..size] == other_out[..size]
}
