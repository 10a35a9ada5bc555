//! How the two sides of a row are timed.
//!
//! A round makes new inputs and times each side on its own copy of them, the two going first in turn: numbers that come again
//! would teach the processor where each branch goes. A time is the median of all rounds. A batch of a hundred rounds has a ratio,
//! that of its own medians, and of these a row has the median, the 10th and the 90th percentile.

use std::hint::black_box;
use std::time::Instant;

const ROUNDS: usize = 100;

#[derive(Clone, Copy)]
pub struct Plan {
    /// Inputs that each side is run on before any is timed.
    pub before: usize,
    pub batches: usize,
    /// In a round.
    pub inputs: usize,
    /// In an input; a time is for one of them.
    pub things: usize,
}

pub struct Times {
    /// Nanoseconds, the other side's and the port's.
    pub sides: [f64; 2],
    /// The port's time to the other's: 10th, 50th and 90th percentile.
    pub ratios: [f64; 3],
}

pub fn race<T: Clone>(
    plan: Plan,
    mut make: impl FnMut() -> T,
    mut other: impl FnMut(&mut T),
    mut port: impl FnMut(&mut T),
) -> Times {
    for _ in 0..plan.before {
        let mut input = make();
        other(&mut input.clone());
        port(&mut input);
    }
    let (mut sides, mut ratios) = ([Vec::new(), Vec::new()], Vec::new());
    for _ in 0..plan.batches {
        let mut times = batch(plan.inputs, &mut make, &mut other, &mut port);
        let [a, b] = times.each_mut().map(|side| percentile(side, 50));
        ratios.push(b / a);
        for (side, more) in sides.iter_mut().zip(times) {
            side.extend(more);
        }
    }
    Times {
        sides: sides.map(|mut side| percentile(&mut side, 50) / plan.things as f64),
        ratios: [10, 50, 90].map(|percent| percentile(&mut ratios, percent)),
    }
}

/// Nanoseconds an input, of each round, for either side.
fn batch<T: Clone>(
    inputs: usize,
    make: &mut impl FnMut() -> T,
    other: &mut impl FnMut(&mut T),
    port: &mut impl FnMut(&mut T),
) -> [Vec<f64>; 2] {
    let (mut a, mut b) = (Vec::new(), Vec::new());
    for round in 0..ROUNDS {
        let mut for_other: Vec<T> = (0..inputs).map(|_| make()).collect();
        let mut for_port = for_other.clone();
        if round % 2 == 0 {
            a.push(time(&mut for_other, other));
            b.push(time(&mut for_port, port));
        } else {
            b.push(time(&mut for_port, port));
            a.push(time(&mut for_other, other));
        }
    }
    [a, b]
}

fn time<T>(inputs: &mut [T], run: &mut impl FnMut(&mut T)) -> f64 {
    let start = Instant::now();
    for input in inputs.iter_mut() {
        run(black_box(input));
    }
    start.elapsed().as_nanos() as f64 / inputs.len() as f64
}

fn percentile(values: &mut [f64], percent: usize) -> f64 {
    values.sort_by(f64::total_cmp);
    values[values.len() * percent / 100]
}
