//! Time sheets to compare.

use crate::random::Random;
use crate::times::{RATE_BOUNDS, TIME_BOUNDS};

/// The numbers that a sheet is worked out from.
#[derive(Clone, Copy, Debug)]
pub struct Sheet {
    pub command_routers: u8,
    pub reply_routers: u8,
    pub rate: u16,
    pub length: u16,
    pub latencies: [u32; 4],
}

/// The bounds of each number, on both sides, with those of all others: of the latencies one at a time, or all at once.
pub fn at_bounds() -> Vec<Sheet> {
    let mut sheets = Vec::new();
    for (command_routers, reply_routers) in routers() {
        for rate in RATE_BOUNDS.into_iter().chain([0, 3, 200, 399, 65_535]) {
            for length in [0, 1, 255, 256, 4_095, 4_096, 4_097, 65_535] {
                sheets.extend(latencies().map(|latencies| Sheet {
                    command_routers,
                    reply_routers,
                    rate: rate as u16,
                    length,
                    latencies,
                }));
            }
        }
    }
    sheets
}

/// Those of the command's way with those of the reply's.
fn routers() -> impl Iterator<Item = (u8, u8)> {
    const BOUNDS: [u8; 8] = [0, 1, 3, 4, 5, 7, 8, 255];
    BOUNDS
        .into_iter()
        .flat_map(|command| BOUNDS.map(|reply| (command, reply)))
}

fn latencies() -> impl Iterator<Item = [u32; 4]> {
    let bounds = TIME_BOUNDS.into_iter().chain([u32::MAX]);
    bounds.flat_map(|bound| {
        (0..4)
            .map(move |place| {
                let mut four = [5_000; 4];
                four[place] = bound;
                four
            })
            .chain([[bound; 4]])
    })
}

/// Any numbers, in most cases in range.
pub fn random(random: &mut Random) -> Sheet {
    let mut sheet = Sheet {
        command_routers: random.below(8) as u8,
        reply_routers: random.below(8) as u8,
        rate: random.between(2, 400) as u16,
        length: random.below(4_097) as u16,
        latencies: std::array::from_fn(|_| random.below(1_000_001) as u32),
    };
    if random.chance(100) {
        match random.below(5) {
            0 => sheet.command_routers = random.byte(),
            1 => sheet.reply_routers = random.byte(),
            2 => sheet.rate = random.word() as u16,
            3 => sheet.length = random.word() as u16,
            _ => sheet.latencies[random.below(4)] = random.word(),
        }
    }
    sheet
}
