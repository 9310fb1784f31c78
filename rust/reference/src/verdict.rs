//! What a load answers, and the line that is printed for it.

/// The verdicts that name one offset in the file.
#[derive(Clone, Copy, Debug, PartialEq, Eq)]
#[repr(u8)]
pub enum Fault {
    FileTooLong = 1,
    Cut = 2,
    UnknownTag = 3,
    TagOrder = 4,
    Length = 5,
    Range = 6,
    GivenBefore = 7,
    NotGiven = 8,
    TooMany = 9,
    NoWalk = 10,
    NoPath = 11,
    NoIntervals = 12,
    NoEntry = 15,
}

#[derive(Clone, Copy, Debug, PartialEq, Eq)]
pub enum Verdict {
    Accepted {
        devices: u8,
        links: u8,
        paths: u8,
        entries: u16,
    },
    /// Verdicts 1 to 12, and 15.
    Refused { fault: Fault, place: u16 },
    /// Verdict 13: the entry that covers the slot of another one.
    Overlap { initiator: u8, slot: u8 },
    /// Verdict 14.
    Clash {
        slot: u8,
        smaller: u8,
        greater: u8,
        link: u8,
    },
}

impl Verdict {
    /// The verdict's number, 0 to 15.
    pub const fn number(&self) -> u8 {
        match self {
            Self::Accepted { .. } => 0,
            Self::Refused { fault, .. } => *fault as u8,
            Self::Overlap { .. } => 13,
            Self::Clash { .. } => 14,
        }
    }
}

/// Room for the longest line, `REFUSED 14 63 62 63 63` and a newline, and to spare.
pub const LINE: usize = 40;

/// Writes the verdict's line, newline included, and gives its size; the rest of `out` keeps its
/// bytes.
pub fn print_verdict(verdict: &Verdict, out: &mut [u8; LINE]) -> usize {
    let mut line = Line { out, size: 0 };
    let number = u16::from(verdict.number());
    match *verdict {
        Verdict::Accepted {
            devices,
            links,
            paths,
            entries,
        } => {
            line.bytes(b"ACCEPTED");
            line.numbers(&[devices.into(), links.into(), paths.into(), entries]);
        }
        Verdict::Refused { place, .. } => {
            line.bytes(b"REFUSED");
            line.numbers(&[number, place]);
        }
        Verdict::Overlap { initiator, slot } => {
            line.bytes(b"REFUSED");
            line.numbers(&[number, initiator.into(), slot.into()]);
        }
        Verdict::Clash {
            slot,
            smaller,
            greater,
            link,
        } => {
            line.bytes(b"REFUSED");
            line.numbers(&[
                number,
                slot.into(),
                smaller.into(),
                greater.into(),
                link.into(),
            ]);
        }
    }
    line.byte(b'\n');
    line.size
}

struct Line<'a> {
    out: &'a mut [u8; LINE],
    size: usize,
}

impl Line<'_> {
    fn byte(&mut self, byte: u8) {
        if let Some(place) = self.out.get_mut(self.size) {
            *place = byte;
            self.size += 1;
        }
    }

    fn bytes(&mut self, bytes: &[u8]) {
        for &byte in bytes {
            self.byte(byte);
        }
    }

    fn numbers(&mut self, numbers: &[u16]) {
        for &number in numbers {
            self.byte(b' ');
            self.decimal(number);
        }
    }

    fn decimal(&mut self, number: u16) {
        let mut digits = [0; 5];
        let mut first = digits.len();
        let mut rest = number;
        loop {
            first -= 1;
            digits[first] = b'0' + (rest % 10) as u8;
            rest /= 10;
            if rest == 0 {
                break;
            }
        }
        self.bytes(&digits[first..]);
    }
}
