//! Times in milliseconds, as medians.

use std::time::Instant;

/// Rounds of calls, and about how long a round lasts.
const ROUNDS: usize = 15;
const ROUND: f64 = 10.0;

pub fn time_once<A>(call: impl FnOnce() -> A) -> (A, f64) {
    let start = Instant::now();
    let answer = call();
    (answer, start.elapsed().as_secs_f64() * 1e3)
}

/// The times of so many calls, each in a loop. Their rounds take turns, so that other load falls on all of them alike.
pub fn time_in_turns(number: usize, mut call: impl FnMut(usize)) -> Vec<f64> {
    let size = |which| {
        call(which);
        (ROUND / time_round(1, || call(which))).clamp(1.0, 1e7) as u32
    };
    let sizes: Vec<u32> = (0..number).map(size).collect();
    let mut times = vec![Vec::new(); number];
    for _ in 0..ROUNDS {
        for (which, times) in times.iter_mut().enumerate() {
            times.push(time_round(sizes[which], || call(which)));
        }
    }
    times.into_iter().map(median).collect()
}

/// The time of one of so many calls.
fn time_round(calls: u32, mut call: impl FnMut()) -> f64 {
    let ((), time) = time_once(|| (0..calls).for_each(|_| call()));
    time / f64::from(calls)
}

pub fn median(mut times: Vec<f64>) -> f64 {
    times.sort_unstable_by(f64::total_cmp);
    times[times.len() / 2]
}

/// Numbers as columns of a table: three digits that count, and all that stand before the point.
pub fn columns(numbers: impl IntoIterator<Item = f64>) -> String {
    let short = |number: f64| {
        let before = number.log10().floor() as i32 + 1;
        let behind = (3 - before).clamp(0, 9) as usize;
        format!("{number:.behind$}")
    };
    numbers.into_iter().map(short).collect::<Vec<_>>().join(" | ")
}
