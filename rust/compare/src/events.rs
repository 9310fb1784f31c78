//! Events at random that make sense most of the time, given the plan and what happened so far.

use crate::fields::split;
use crate::permits::{permits, Permit};
use crate::random::Random;
use crate::replies;
use crate::times::Times;
use crate::turns::{Entries, Turn};
use spwd::{Event, Record, Watchdog};

#[derive(Default)]
pub struct Actor {
    has_plan: bool,
    permits: Vec<Permit>,
    times: Option<Times>,
    has_replies: bool,
    last: Option<u8>,
    /// Live transactions: initiator and number.
    live: Vec<(u8, u16)>,
}

impl Actor {
    /// For a box under the plan of this file.
    pub fn under(file: &[u8]) -> Self {
        let (fields, _) = split(file);
        Self {
            has_plan: true,
            permits: permits(&fields),
            times: Times::among(&fields),
            has_replies: fields.iter().any(|field| field[0] == replies::TAG),
            ..Self::default()
        }
    }

    pub fn has_plan(&self) -> bool {
        self.has_plan
    }

    pub fn has_replies(&self) -> bool {
        self.has_replies
    }

    pub fn has_times(&self) -> bool {
        self.times.is_some()
    }

    /// Whether some transaction is live.
    pub fn has_live(&self) -> bool {
        !self.live.is_empty()
    }

    pub fn event(&self, five: Watchdog, random: &mut Random) -> Event {
        let strange = random.chance(40);
        match random.below(16) {
            0..6 => self.time_code(five, strange, random),
            6..12 => self.request(strange, random),
            12..15 => self.reply(strange, random),
            _ => Event::Reading {
                clock: clock(five, random),
            },
        }
    }

    /// What bears on the next turn.
    pub fn entries(&self) -> Entries<'_> {
        Entries {
            permits: &self.permits,
            times: self.times,
            has_replies: self.has_replies,
        }
    }

    /// The next turn of a request that may be taken or not, from a slot that may be none.
    pub fn turn(&self, random: &mut Random) -> Turn {
        let mut turn = self.turn_of_a_permit(random);
        while random.chance(150) {
            match random.below(5) {
                0 => turn.initiator = random.byte(),
                1 => turn.target = random.byte(),
                2 => turn.length = random.pick(&[4_095, 4_096, 4_097, u16::MAX]),
                3 => turn.length = random.word() as u16,
                _ => turn.slot = random.pick(&[62, 63, 64, 65, u8::MAX]),
            }
        }
        turn
    }

    /// From a slot near that of an entry, or any.
    fn turn_of_a_permit(&self, random: &mut Random) -> Turn {
        let mut turn = Turn {
            initiator: random.byte() % 64,
            target: random.byte() % 64,
            length: random.below(4_098) as u16,
            slot: match random.below(8) {
                0 => random.byte(),
                _ => random.byte() % 64,
            },
        };
        if self.permits.is_empty() {
            return turn;
        }
        let permit = random.pick(&self.permits);
        (turn.initiator, turn.target) = (permit.initiator, permit.target);
        turn.length = self.length(&permit, random);
        if random.chance(400) {
            turn.slot = (permit.slot + random.pick(&[62, 63, 0, 1, permit.span])) % 64;
        }
        turn
    }

    fn time_code(&self, five: Watchdog, strange: bool, random: &mut Random) -> Event {
        let byte = match self.last {
            _ if strange => random.byte(),
            Some(last) if !random.chance(20) => (last + 1) % 64,
            _ => random.below(64) as u8,
        };
        let clock = clock(five, random);
        Event::TimeCode { byte, clock }
    }

    pub fn request(&self, strange: bool, random: &mut Random) -> Event {
        let (mut initiator, mut target, mut length) = match self.permits[..] {
            [] => (random.byte() % 64, random.byte() % 64, 256),
            _ => {
                let permit = random.pick(&self.permits);
                (
                    permit.initiator,
                    permit.target,
                    self.length(&permit, random),
                )
            }
        };
        let mut kind = random.below(2) as u8;
        if strange {
            match random.below(4) {
                0 => initiator = random.byte(),
                1 => target = random.byte(),
                2 => kind = random.byte(),
                _ => length = random.word() as u16,
            }
        }
        Event::Request {
            initiator,
            target,
            kind,
            length,
        }
    }

    /// A length that fits the entry or does not by little, or that would if the reply went back over the path, or any.
    fn length(&self, permit: &Permit, random: &mut Random) -> u16 {
        let most = self.longest(permit);
        match random.below(9) {
            0 => 0,
            1 => most,
            2 => most + 1,
            3 => self.longest(&permit.back_over_the_path()),
            4 => random.below(4098) as u16,
            _ => random.below(usize::from(most) + 1) as u16,
        }
    }

    /// The greatest length that fits the entry, 0 if none does.
    fn longest(&self, permit: &Permit) -> u16 {
        match &self.times {
            None => 256 * u16::from(permit.span),
            Some(times) => times.longest(permit),
        }
    }

    fn reply(&self, strange: bool, random: &mut Random) -> Event {
        let (mut initiator, mut transaction) = match self.live[..] {
            [] => (random.byte() % 64, 0),
            _ => random.pick(&self.live),
        };
        if self.live.is_empty() && !self.permits.is_empty() {
            initiator = random.pick(&self.permits).initiator;
        }
        if strange {
            initiator = random.byte();
        }
        if random.chance(60) {
            transaction = transaction.wrapping_add(random.pick(&[1, 2, 256, u16::MAX]));
        }
        let status = random.byte() >> random.below(8);
        Event::Reply {
            initiator,
            transaction,
            status,
        }
    }

    /// Learns what an accepted event did.
    pub fn learn(&mut self, event: &Event, records: &[Record]) {
        match *event {
            Event::TimeCode { byte, .. } => self.last = Some(byte % 64),
            Event::Reply {
                initiator,
                transaction,
                ..
            } => self.live.retain(|&live| live != (initiator, transaction)),
            _ => {}
        }
        for record in records {
            let told = (record.initiator, record.transaction);
            match record.kind {
                Record::STARTED => self.live.push(told),
                Record::TRANSACTION_LATE => self.live.retain(|&live| live != told),
                _ => {}
            }
        }
    }
}

/// A clock at or near a bound of the intervals after the last one, or any.
fn clock(five: Watchdog, random: &mut Random) -> u32 {
    let Watchdog {
        last,
        least,
        greatest,
        ..
    } = five;
    let middle = least.wrapping_add(greatest.wrapping_sub(least) / 2);
    let elapsed = match random.below(10) {
        0 => least.wrapping_sub(1),
        1 => least,
        2 => greatest,
        3 => greatest.wrapping_add(1),
        4 => random.word(),
        _ => middle,
    };
    last.wrapping_add(elapsed)
}

/// Five numbers that a caller may lend: all 0, all but one, or any.
pub fn five(random: &mut Random) -> [u32; 5] {
    const EDGES: [u32; 8] = [0, 1, 2, 90, 110, 0x7fff_ffff, 0x8000_0000, u32::MAX];
    let any: [u32; 5] = std::array::from_fn(|_| match random.below(10) {
        0 => random.word(),
        1 | 2 => 1 << random.below(32),
        _ => random.pick(&EDGES),
    });
    let mut five = [0; 5];
    match random.below(6) {
        0 => {}
        1 | 2 => {
            let place = random.below(5);
            five[place] = any[place];
        }
        _ => five = any,
    }
    five
}
