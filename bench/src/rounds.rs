//! Timed rounds over many tables, or whatever else the sides take.

use std::borrow::Borrow;
use std::hint::black_box;
use std::time::{Duration, Instant};

/// Rounds of each side; the median one counts.
const ROUNDS: usize = 101;

/// A round passes over the items until it has made so many calls, so that the clock's own time is
/// nothing beside it; fewer where the slowest side would take longer than this.
const CALLS: usize = 2_000;
const ENOUGH: Duration = Duration::from_millis(5);

/// Nanoseconds for one item on each side. The sides take turns, and take turns in going first, so
/// that whatever else the machine does meets them alike.
pub fn medians<I: Borrow<T>, T: ?Sized, const SIDES: usize>(
    sides: [fn(&T) -> u64; SIDES],
    items: &[I],
) -> [f64; SIDES] {
    let slowest = sides.map(|side| one_pass(side, items)).into_iter().max();
    let in_time = ENOUGH.as_nanos() / slowest.map_or(1, |pass| pass.as_nanos().max(1));
    let passes = CALLS.div_ceil(items.len()).min(in_time as usize).max(1);
    let mut times = [const { Vec::new() }; SIDES];
    for round in 0..ROUNDS {
        for turn in 0..SIDES {
            let side = (round + turn) % SIDES;
            times[side].push(one_round(sides[side], items, passes));
        }
    }
    times.map(|mut list| {
        list.sort_by(f64::total_cmp);
        list[ROUNDS / 2]
    })
}

fn one_round<I: Borrow<T>, T: ?Sized>(side: fn(&T) -> u64, items: &[I], passes: usize) -> f64 {
    let begin = Instant::now();
    for _ in 0..passes {
        for item in items {
            black_box(side(black_box(item.borrow())));
        }
    }
    begin.elapsed().as_nanos() as f64 / (passes * items.len()) as f64
}

fn one_pass<I: Borrow<T>, T: ?Sized>(side: fn(&T) -> u64, items: &[I]) -> Duration {
    let nanoseconds = one_round(side, items, 1) * items.len() as f64;
    Duration::from_nanos(nanoseconds as u64)
}
