//! The version of the archive, and the sizes of what is lent to it.

use spwd::{Plan, Spwd};
use std::mem::size_of;

#[test]
fn the_archive_has_the_version_of_the_wrapper() {
    assert_eq!(spwd::version(), spwd::VERSION);
    assert!(spwd::version_fits());
}

/// The header's, which C programs compare with the archive's.
#[test]
fn the_header_has_it_too() {
    let header = include_str!("../../../c/spwd.h");
    let line = format!("\n#define SPWD_VERSION {}\n", spwd::VERSION);
    assert!(header.contains(&line));
}

/// Those that the header holds C to.
#[test]
fn sizes() {
    assert_eq!((size_of::<Plan>(), size_of::<Spwd>()), (14_864, 15_656));
    let header = include_str!("../../../c/spwd.h");
    assert!(header.contains("sizeof(spwd_plan) == 14864"));
    assert!(header.contains("sizeof(spwd_box) == 15656"));
}
