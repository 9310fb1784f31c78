//! Taking times, and the table of them.

use std::sync::LazyLock;
use std::time::{Duration, Instant};

/// How often each time is taken.
pub const ROUNDS: usize = 2_000;
const ROUND: Duration = Duration::from_micros(100);

/// What taking a time takes itself, in ns.
static TAKING: LazyLock<f64> = LazyLock::new(|| {
    let times = (0..10_000).map(|_| Instant::now().elapsed().as_nanos());
    times.min().unwrap_or(0) as f64
});

/// The least time of a call, in ns, of those taken so far.
pub struct Least(f64);

impl Default for Least {
    fn default() -> Self {
        Self(f64::INFINITY)
    }
}

impl Least {
    /// Runs so many calls, and keeps the time of one if it is the least.
    pub fn take(&mut self, calls: usize, run: impl FnOnce()) {
        let taking = *TAKING;
        let start = Instant::now();
        run();
        let time = start.elapsed().as_nanos() as f64 - taking;
        self.0 = self.0.min(time / calls as f64);
    }
}

/// The heads of the columns.
pub fn print_head() {
    println!(
        "{:<50}{:>7}  {:<23}{:>10}{:>11}{:>7}",
        "one call, ns", "bytes", "verdict", "proved", "reference", "ratio"
    );
}

/// One row: what is called, on what, and the least time of each side.
pub fn print_row(name: &str, size: &str, verdict: &str, least: &Least, their_least: &Least) {
    let ratio = least.0 / their_least.0;
    println!(
        "{name:<50}{size:>7}  {verdict:<23}{:>10.1}{:>11.1}{ratio:>7.2}",
        least.0, their_least.0
    );
}

/// The least time of a call of each side, by turns, of calls that can be made any number of times.
pub fn by_turns(mut ours: impl FnMut(), mut theirs: impl FnMut()) -> (Least, Least) {
    let (calls, their_calls) = (in_a_round(&mut ours), in_a_round(&mut theirs));
    let (mut least, mut their_least) = (Least::default(), Least::default());
    for _ in 0..ROUNDS {
        least.take(calls, || (0..calls).for_each(|_| ours()));
        their_least.take(their_calls, || (0..their_calls).for_each(|_| theirs()));
    }
    (least, their_least)
}

/// How many calls fill a round, after some to warm up.
fn in_a_round(call: &mut impl FnMut()) -> usize {
    let mut one = Least::default();
    for _ in 0..2 {
        one.take(100, || (0..100).for_each(|_| call()));
    }
    (ROUND.as_nanos() as f64 / one.0).ceil() as usize
}
