//! Times of two ways to do the same work, taken in turn.

use std::time::Instant;

const WARM_UP: usize = 20;

/// Median times in nanoseconds per call, and the median of the rounds' own
/// ratios: only the ratio means something away from one machine.
pub struct Times {
    pub first: f64,
    pub second: f64,
    pub ratio: f64,
}

/// Goes over all inputs in both ways, in turn within every round.
pub fn measure<I>(
    inputs: &[I],
    rounds: usize,
    repeats: usize,
    mut first: impl FnMut(&I),
    mut second: impl FnMut(&I),
) -> Times {
    let mut times = Vec::with_capacity(rounds);
    // The first rounds warm up and are not kept.
    for round in 0..rounds + WARM_UP {
        let pair = if round.is_multiple_of(2) {
            let one = time_of(inputs, repeats, &mut first);
            (one, time_of(inputs, repeats, &mut second))
        } else {
            let other = time_of(inputs, repeats, &mut second);
            (time_of(inputs, repeats, &mut first), other)
        };
        if round >= WARM_UP {
            times.push(pair);
        }
    }
    Times {
        first: median(times.iter().map(|&(first, _)| first)),
        second: median(times.iter().map(|&(_, second)| second)),
        ratio: median(times.iter().map(|&(first, second)| first / second)),
    }
}

fn time_of<I>(inputs: &[I], repeats: usize, work: &mut impl FnMut(&I)) -> f64 {
    let start = Instant::now();
    for _ in 0..repeats {
        inputs.iter().for_each(&mut *work);
    }
    start.elapsed().as_nanos() as f64 / (repeats * inputs.len()) as f64
}

fn median(values: impl Iterator<Item = f64>) -> f64 {
    let mut values: Vec<f64> = values.collect();
    values.sort_by(f64::total_cmp);
    values[values.len() / 2]
}
