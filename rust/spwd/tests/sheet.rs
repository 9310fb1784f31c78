//! The sheet by itself: T-01's sample, every bound on both sides, each way with routers of its own, and the tables of source document 003.

use spwd::{sheet, sheet2, Latencies, Sheet, SheetOutOfRange};
use spwd::{LATENCY_MOST, LENGTH_MOST, RATE_LEAST, RATE_MOST, ROUTERS_MOST};

const FIVE: Latencies = Latencies {
    a: 5_000,
    d: 5_000,
    f: 5_000,
    g: 5_000,
};

/// With R 4, D 256, S 200 and 5,000 each; the worked-out terms stand in section 4 of source document 000, in microseconds.
#[test]
fn the_sample() {
    let terms = Sheet {
        total: 39_450,
        b: 2_400,
        c: 1_200,
        e: 12_850,
        h: 2_400,
        i: 600,
    };
    assert_eq!(sheet(4, 200, 256, FIVE), Ok(terms));
}

/// Each quotient is rounded up by itself: at 400 Mbit/s a byte takes 25 ns, at 300 a third of 100.
#[test]
fn rounded_up_term_by_term() {
    let none = Latencies::default();
    let exact = sheet(1, 400, 0, none).unwrap();
    assert_eq!((exact.c, exact.e, exact.i), (525, 25, 225));
    let up = sheet(1, 300, 0, none).unwrap();
    assert_eq!((up.c, up.e, up.i), (700, 34, 300));
    let all = sheet(2, 399, 1, none).unwrap();
    assert_eq!((all.c, all.e, all.i), (552, 51, 251));
    assert_eq!(all.total, 2 * 1_200 + 552 + 51 + 251);
}

/// The header has the reply's address in whole groups of four bytes.
#[test]
fn headers() {
    let sizes = [16, 21, 22, 23, 24, 29, 30, 31];
    for (routers, size) in (0..=ROUTERS_MOST).zip(sizes) {
        let terms = sheet(routers, 10, 0, Latencies::default()).unwrap();
        assert_eq!(terms.c, 1_000 * size);
        assert_eq!(terms.i, 1_000 * (u32::from(routers) + 8));
        assert_eq!((terms.b, terms.h), (600 * u32::from(routers), terms.b));
    }
}

/// T-03: "R of each way for its own terms (P by the reply's R)". At 10 Mbit/s a byte takes 1,000 ns.
#[test]
fn each_way() {
    let addresses = [0, 4, 4, 4, 4, 8, 8, 8];
    for command in 0..=ROUTERS_MOST {
        for (reply, address) in (0..=ROUTERS_MOST).zip(addresses) {
            let terms = sheet2(command, reply, 10, 0, Latencies::default()).unwrap();
            let (out, back) = (u32::from(command), u32::from(reply));
            assert_eq!((terms.b, terms.h), (600 * out, 600 * back));
            assert_eq!(terms.c, 1_000 * (out + 16 + address));
            assert_eq!(terms.i, 1_000 * (back + 8));
            let total = terms.b + terms.c + terms.e + terms.h + terms.i;
            assert_eq!((terms.e, terms.total), (1_000, total));
        }
    }
}

/// With 5,000 each, 256 bytes and 200 Mbit/s, where a byte takes 50 ns: 20,000 for the latencies, 12,850 for the data, and
/// 600 × 1 + 50 × (1 + 16 + 8) + 600 × 5 + 50 × (5 + 8) = 5,500 over one router out and five back;
/// 600 × 5 + 50 × (5 + 16 + 4) + 600 × 1 + 50 × (1 + 8) = 5,300 over five out and one back. At 300 each term is rounded up by itself.
#[test]
fn out_is_not_back() {
    assert_eq!(sheet2(1, 5, 200, 256, FIVE).unwrap().total, 38_350);
    assert_eq!(sheet2(5, 1, 200, 256, FIVE).unwrap().total, 38_150);
    assert_eq!(sheet2(4, 4, 200, 256, FIVE), sheet(4, 200, 256, FIVE));
    let up = Sheet {
        total: 600 + 834 + 34 + 3_000 + 434,
        b: 600,
        c: 834,
        e: 34,
        h: 3_000,
        i: 434,
    };
    assert_eq!(sheet2(1, 5, 300, 0, Latencies::default()), Ok(up));
}

/// Each latency is in the total once, whichever it is.
#[test]
fn latencies() {
    let without = sheet(3, 50, 64, Latencies::default()).unwrap();
    let one = 123_457;
    for latencies in [
        Latencies { a: one, ..FIVE },
        Latencies { d: one, ..FIVE },
        Latencies { f: one, ..FIVE },
        Latencies { g: one, ..FIVE },
    ] {
        let total = without.total + one + 15_000;
        assert_eq!(sheet(3, 50, 64, latencies), Ok(Sheet { total, ..without }));
    }
}

#[test]
fn bounds() {
    let taken = |routers, rate, length, latencies| sheet(routers, rate, length, latencies).is_ok();
    for rate in [RATE_LEAST, RATE_MOST] {
        for routers in [0, ROUTERS_MOST] {
            for length in [0, LENGTH_MOST] {
                assert!(taken(routers, rate, length, Latencies::default()));
            }
        }
    }
    let most = Latencies {
        a: LATENCY_MOST,
        d: LATENCY_MOST,
        f: LATENCY_MOST,
        g: LATENCY_MOST,
    };
    assert!(taken(4, 200, 256, most));
    for (routers, rate, length) in [
        (ROUTERS_MOST + 1, 200, 256),
        (u8::MAX, 200, 256),
        (4, RATE_LEAST - 1, 256),
        (4, 0, 256),
        (4, RATE_MOST + 1, 256),
        (4, u16::MAX, 256),
        (4, 200, LENGTH_MOST + 1),
        (4, 200, u16::MAX),
    ] {
        assert_eq!(sheet(routers, rate, length, FIVE), Err(SheetOutOfRange));
    }
    for more in [LATENCY_MOST + 1, u32::MAX] {
        for latencies in [
            Latencies { a: more, ..FIVE },
            Latencies { d: more, ..FIVE },
            Latencies { f: more, ..FIVE },
            Latencies { g: more, ..FIVE },
        ] {
            assert_eq!(sheet(4, 200, 256, latencies), Err(SheetOutOfRange));
        }
    }
}

/// Each way has the bound of its own, and all other bounds are those of `sheet`.
#[test]
fn bounds_of_each_way() {
    for (command, reply) in [(0, ROUTERS_MOST), (ROUTERS_MOST, 0)] {
        assert!(sheet2(command, reply, RATE_LEAST, LENGTH_MOST, FIVE).is_ok());
        let refused = Err(SheetOutOfRange);
        assert_eq!(sheet2(command, reply, RATE_MOST + 1, 0, FIVE), refused);
        assert_eq!(sheet2(command, reply, 200, LENGTH_MOST + 1, FIVE), refused);
    }
    for over in [ROUTERS_MOST + 1, u8::MAX] {
        assert_eq!(sheet2(over, 0, 200, 256, FIVE), Err(SheetOutOfRange));
        assert_eq!(sheet2(0, over, 200, 256, FIVE), Err(SheetOutOfRange));
    }
}

#[test]
fn the_refusal_as_text() {
    assert_eq!(SheetOutOfRange::NUMBER, 6);
    assert_eq!(SheetOutOfRange.to_string(), "refused 6");
}

/// The greatest total that a sheet has: eight links at 2 Mbit/s with all that is allowed.
#[test]
fn the_longest() {
    let most = Latencies {
        a: LATENCY_MOST,
        d: LATENCY_MOST,
        f: LATENCY_MOST,
        g: LATENCY_MOST,
    };
    let longest = sheet(ROUTERS_MOST, RATE_LEAST, LENGTH_MOST, most).unwrap();
    assert_eq!((longest.c, longest.e), (155_000, 20_485_000));
    assert_eq!(
        longest.total,
        8_400 + 155_000 + 20_485_000 + 75_000 + 4_000_000
    );
}

/// Tables 2 to 9 of source document 003: four routers, 5 us each but for the memory, which takes 3 us and the time of the data at its own
/// throughput. A read's reply has four bytes more than a sheet counts, and 2 us are kept as a guard; the slot is rounded up to whole
/// microseconds.
#[test]
fn the_tables_of_document_003() {
    let rows = include_str!("../../reference/tests/tables_003.txt");
    let mut count = 0;
    for row in rows.lines().filter(|line| !line.starts_with('#')) {
        let words: Vec<_> = row.split(' ').collect();
        let [_, rate, length, throughput, slot] = words[..] else {
            panic!("{row}");
        };
        let number = |word: &str| word.parse::<u32>().unwrap();
        let (rate, length, slot) = (number(rate), number(length), number(slot));
        let throughput = match throughput {
            "-" => 1_000,
            word => number(word),
        };
        let memory = 8_000 * length;
        assert_eq!(memory % throughput, 0, "{row}");
        let latencies = Latencies {
            f: 3_000 + memory / throughput,
            ..FIVE
        };
        let time = sheet(4, rate as u16, length as u16, latencies)
            .unwrap()
            .total;
        // ⌈(time + 40,000 / S + 2,000) / 1,000⌉, times S above and below.
        let above = rate * (time + 2_000) + 40_000;
        assert_eq!(above.div_ceil(1_000 * rate), slot, "{row}");
        count += 1;
    }
    assert_eq!(count, 83);
}
