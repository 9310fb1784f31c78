//! Images of a box: where its numbers stand in them, and what may be asked of any bytes.

mod common;

use common::{busy, first, plan_a, smallest, under};
use spwd::{Array, Image, Plan, Spwd, Watchdog, IMAGE_SIZE};
use std::mem::{offset_of, size_of};

/// `spwd_box` as the header lays it out.
#[repr(C)]
struct Laid {
    plan: LaidPlan,
    run: [u64; 96],
    watchdog: [u32; 5],
    last: [u8; 1],
}

#[repr(C)]
struct LaidPlan {
    sets: [u64; 3],
    ends: [u8; 128],
    rows: [u8; 8],
    reach: [u64; 8],
    paths: [u8; 2816],
    spans: [u8; 512],
    aims: [u64; 1152],
    numbers: [u32; 524],
}

#[test]
fn laid_out_as_in_the_header() {
    let offsets = [
        offset_of!(Laid, plan.sets),
        offset_of!(Laid, plan.ends),
        offset_of!(Laid, plan.rows),
        offset_of!(Laid, plan.reach),
        offset_of!(Laid, plan.paths),
        offset_of!(Laid, plan.spans),
        offset_of!(Laid, plan.aims),
        offset_of!(Laid, plan.numbers),
        offset_of!(Laid, run),
        offset_of!(Laid, watchdog),
        offset_of!(Laid, last),
    ];
    assert_eq!(Array::ALL.map(|array| array.offset), offsets);
    assert_eq!(Array::LAST.end() + 3, size_of::<Laid>());
    assert_eq!(size_of::<Laid>(), IMAGE_SIZE);
    let header = include_str!("../../../c/spwd.h");
    for array in Array::ALL {
        let (name, count, bits) = (array.name, array.count, 8 * array.width);
        let declared = match name {
            "watchdog" => "spwd_watchdog watchdog;".to_string(),
            _ => format!("uint{bits}_t {name}[{count}];"),
        };
        assert!(header.contains(&declared), "{declared}");
    }
}

#[test]
fn there_and_back() {
    let five = Watchdog::from([1, 2, 3, 4, 0x0506_0708]);
    let mut lent = busy();
    lent.set_watchdog(five);
    for spwd in [Spwd::new(), under(&first()), busy(), lent.clone()] {
        let bytes = *spwd.image().bytes();
        let image = Image::new(bytes);
        assert_eq!(image.bytes(), &bytes);
        assert_eq!(image.is_blank(), spwd.is_blank());
        for file in [first(), smallest(), Vec::new()] {
            let (mut one, mut other) = (Plan::new(), Plan::new());
            let holds = spwd.holds(&file, &mut one);
            assert_eq!(image.holds(&file, &mut other), holds);
            assert_eq!(one, other);
        }
    }
    let image = lent.image();
    for (place, number) in [1, 2, 3, 4, 0x0506_0708].into_iter().enumerate() {
        assert_eq!(image.number(Array::WATCHDOG, place), number);
    }
    // Little-endian, wherever the test runs.
    let greatest = Array::WATCHDOG.offset + 16;
    assert_eq!(image.bytes()[greatest..greatest + 4], [8, 7, 6, 5]);
    assert_eq!(image.number(Array::LAST, 0), 1);
    assert_eq!(image.number(Array::ROWS, 1), 2);
    assert_eq!(image.number(Array::NUMBERS, 1), 110);
}

/// A place that an array has not is 0, whatever stands there.
#[test]
fn no_such_place() {
    let image = Image::new([0xff; IMAGE_SIZE]);
    for array in Array::ALL {
        let most = u64::MAX >> (64 - 8 * array.width);
        assert_eq!(image.number(array, array.count - 1), most, "{}", array.name);
        assert_eq!(image.number(array, array.count), 0, "{}", array.name);
        assert_eq!(image.number(array, usize::MAX), 0, "{}", array.name);
    }
    let strange = Array {
        offset: IMAGE_SIZE - 1,
        ..Array::SETS
    };
    assert_eq!(image.number(strange, 0), 0);
}

/// Every byte of every number counts; the three bytes behind them belong to none.
#[test]
fn one_byte_is_enough() {
    for place in 0..IMAGE_SIZE {
        let mut bytes = [0; IMAGE_SIZE];
        bytes[place] = 1 << (place % 8);
        let blank = Image::new(bytes).is_blank();
        assert_eq!(blank, place >= Array::LAST.end(), "{place}");
    }
}

/// Every byte of plan memory counts for `holds`, and no other.
#[test]
fn another_byte_is_another_plan() {
    let file = plan_a(&[&[1, 0, 1, 3], &[2, 62, 2, 4, 3]]);
    let bytes = *under(&file).image().bytes();
    for place in 0..IMAGE_SIZE {
        let mut bytes = bytes;
        bytes[place] ^= 1;
        let holds = Image::new(bytes).holds(&file, &mut Plan::new());
        assert_eq!(holds, place >= Array::NUMBERS.end(), "{place}");
    }
}
