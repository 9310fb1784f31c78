//! The time sheet by itself.

mod common;

use common::model::time;
use common::Random;
use reference::{sheet, Fault, Latencies, Sheet};

const USUAL: Latencies = Latencies {
    a: 5_000,
    d: 5_000,
    f: 5_000,
    g: 5_000,
};

/// The sheet with the same routers both ways.
fn both_ways(routers: u8, rate: u16, length: u16, latencies: Latencies) -> Result<Sheet, Fault> {
    sheet(routers, routers, rate, length, latencies)
}

#[test]
fn the_page_s_sample() {
    let expected = Sheet {
        total: 39_450,
        b: 2_400,
        c: 1_200,
        e: 12_850,
        h: 2_400,
        i: 600,
    };
    assert_eq!(both_ways(4, 200, 256, USUAL), Ok(expected));
}

#[test]
fn no_routers_and_no_data() {
    let expected = Sheet {
        total: 125_000,
        b: 0,
        c: 80_000,
        e: 5_000,
        h: 0,
        i: 40_000,
    };
    assert_eq!(both_ways(0, 2, 0, Latencies::default()), Ok(expected));
}

#[test]
fn each_quotient_is_rounded_up_by_itself() {
    // 160,000, 10,000 and 80,000 in 3: each leaves a rest, and their sum, 250,000, gives 83,334.
    let sheet = both_ways(0, 3, 0, Latencies::default()).unwrap();
    assert_eq!((sheet.c, sheet.e, sheet.i), (53_334, 3_334, 26_667));
    assert_eq!(sheet.total, 53_334 + 3_334 + 26_667);
}

#[test]
fn each_way_has_its_own_routers() {
    let latencies = Latencies {
        a: 1,
        d: 20,
        f: 300,
        g: 4_000,
    };
    // A header of 1 + 16 + 8 bytes: the reply's address counts in fours.
    let expected = Sheet {
        total: 4_321 + 600 + 2_500 + 3_000 + 200 + 1_300,
        b: 600,
        c: 2_500,
        e: 200,
        h: 3_000,
        i: 1_300,
    };
    assert_eq!(sheet(1, 5, 100, 1, latencies), Ok(expected));
    let other = sheet(5, 1, 100, 1, latencies).unwrap();
    assert_eq!((other.b, other.h), (3_000, 600));
    assert_eq!((other.c, other.i), (2_500, 900));
    for (reply_routers, header) in [(0, 16), (1, 20), (4, 20), (5, 24), (7, 24)] {
        let sheet = sheet(0, reply_routers, 100, 0, latencies).unwrap();
        assert_eq!(sheet.c, 100 * header);
    }
}

#[test]
fn what_is_out_of_range() {
    let refused = Err(Fault::Range);
    assert_eq!(Fault::Range as u8, 6);
    for (rate, taken) in [
        (0, false),
        (1, false),
        (2, true),
        (400, true),
        (401, false),
        (u16::MAX, false),
    ] {
        assert_eq!(both_ways(7, rate, 4_096, USUAL).is_ok(), taken, "{rate}");
    }
    for routers in 0..=u8::MAX {
        let taken = routers <= 7;
        assert_eq!(sheet(routers, 0, 200, 0, USUAL).is_ok(), taken);
        assert_eq!(sheet(0, routers, 200, 0, USUAL).is_ok(), taken);
    }
    assert!(both_ways(7, 2, 4_096, USUAL).is_ok());
    assert_eq!(both_ways(7, 2, 4_097, USUAL), refused);
    assert_eq!(both_ways(0, 2, u16::MAX, USUAL), refused);
    for place in 0..4 {
        for (latency, taken) in [
            (0, true),
            (1_000_000, true),
            (1_000_001, false),
            (u32::MAX, false),
        ] {
            let mut four = [5_000; 4];
            four[place] = latency;
            let [a, d, f, g] = four;
            let answer = both_ways(4, 200, 256, Latencies { a, d, f, g });
            assert_eq!(answer.is_ok(), taken, "{place} {latency}");
            if let Ok(sheet) = answer {
                assert_eq!(sheet.total, 39_450 - 5_000 + latency);
            }
        }
    }
}

#[test]
fn the_longest_time() {
    let [a, d, f, g] = [1_000_000; 4];
    let sheet = both_ways(7, 2, 4_096, Latencies { a, d, f, g }).unwrap();
    assert_eq!(
        sheet.total,
        4_000_000 + 8_400 + 155_000 + 20_485_000 + 75_000
    );
}

#[test]
fn sheet_and_model_agree() {
    let mut random = Random(0x7ea5);
    for _ in 0..20_000 {
        let (command, reply) = (random.below(8) as u8, random.below(8) as u8);
        let rate = 2 + random.below(399) as u16;
        let length = random.below(4_097) as u16;
        let four: [u32; 4] = std::array::from_fn(|_| random.below(1_000_001) as u32);
        let [a, d, f, g] = four;
        let sheet = sheet(command, reply, rate, length, Latencies { a, d, f, g }).unwrap();
        let expected = time(
            (command.into(), reply.into()),
            rate.into(),
            length.into(),
            four.map(u128::from),
        );
        assert_eq!(u128::from(sheet.total), expected);
        let Sheet {
            total,
            b,
            c,
            e,
            h,
            i,
        } = sheet;
        assert_eq!(total, a + b + c + d + e + f + g + h + i);
    }
}

/// A row of `tables_003.txt`.
struct Row {
    rate: u64,
    length: u64,
    /// In Mbit/s.
    memory: u64,
    microseconds: u64,
}

impl Row {
    fn read(line: &str) -> Self {
        let words: Vec<&str> = line.split(' ').collect();
        let [_, rate, length, memory, microseconds] = words[..] else {
            panic!("{line}");
        };
        let number = |word: &str| word.parse().unwrap();
        Self {
            rate: number(rate),
            length: number(length),
            memory: if memory == "-" { 1_000 } else { number(memory) },
            microseconds: number(microseconds),
        }
    }

    /// The latency f: 3 µs, and the data at the memory's throughput.
    fn memory_time(&self) -> u64 {
        let data = 8_000 * self.length;
        assert_eq!(data % self.memory, 0);
        3_000 + data / self.memory
    }
}

/// Document 003 works out the time-slot of four routers: the sheet with 5 µs for a, d and g, four more
/// bytes on the link and a margin of 2 µs, in whole microseconds.
#[test]
fn tables_of_document_003() {
    let rows = include_str!("tables_003.txt").lines();
    let rows: Vec<Row> = rows
        .filter(|line| !line.starts_with('#'))
        .map(Row::read)
        .collect();
    assert_eq!(rows.len(), 83);
    for row in rows {
        let latencies = Latencies {
            f: row.memory_time() as u32,
            ..USUAL
        };
        let sheet = both_ways(4, row.rate as u16, row.length as u16, latencies).unwrap();
        // Four bytes may take no whole number of nanoseconds, so all is multiplied by the rate.
        let time = row.rate * (u64::from(sheet.total) + 2_000) + 40_000;
        let microseconds = time.div_ceil(1_000 * row.rate);
        assert_eq!(
            microseconds, row.microseconds,
            "{} {}",
            row.rate, row.length
        );
    }
}
