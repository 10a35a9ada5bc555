//! Times the port beside the Rust, and beside SpeexDSP where it was built with it (`--cfg speexdsp`), and prints a table of each.
//! `bench PART` times the rows alone whose name has PART in it. How a row is timed: race.rs.

mod aspeyruni;
#[allow(dead_code)] // the Rust's text, whole
mod canceller;
#[allow(dead_code)]
mod config;
mod error;
mod fft;
mod house_detector;
mod inputs;
mod kinds;
mod race;
mod reference;
mod rust_rho;
#[allow(dead_code)]
mod rust_tau;
#[cfg(speexdsp)]
mod speex;
#[allow(dead_code)]
mod taken;

use aspeyruni::{rho, tau};
use canceller::EchoCanceller;
use config::Suppression;
use fft::{Complex, ComplexFft, RealFft};
use inputs::{Noise, Random};
use kinds::{Kind, LOUD, QUARTER, SOUND};
use race::{race, Plan, Times};
use reference::{complexes, numbers, POINTS, SAMPLES, SPECTRUM};
use rust_rho::RhoCanceller;
use std::array::from_fn;
use std::env::args;
use std::hint::black_box;

/// Of Rho in a call.
const PAIRS: usize = 16;

/// Of Tau in a block.
const BLOCK: usize = 256;

/// Of Tau in the rows of a block.
const PARTITIONS: [usize; 4] = [1, 4, 13, 32];

const A_TRANSFORM: Plan = Plan {
    before: 0,
    batches: 100,
    inputs: 8,
    things: 1,
};

/// After enough of them to fill the history, and to end the freeze that its first samples may bring.
const PAIRS_OF_RHO: Plan = Plan {
    before: 512,
    batches: 100,
    inputs: 8,
    things: PAIRS,
};

/// After enough of them to establish the detector and to move the output to where the shadow is. So no block that is timed moves it, and
/// each updates the shadow.
const A_BLOCK: Plan = Plan {
    before: 200,
    batches: 20,
    inputs: 8,
    things: 1,
};

/// 1,280 pairs, the fewest that make whole calls of 1, 16, 160 and 256 pairs each. As many blocks before as above.
const FIVE_BLOCKS: Plan = Plan {
    before: 40,
    batches: 20,
    inputs: 2,
    things: 5,
};

/// Where two sources of numbers begin. A source goes on from input to input, so that its numbers do not come again.
const SEED: u64 = 0x9e37_79b9_7f4a_7c15;
const OTHER_SEED: u64 = 0x2545_f491_4f6c_dd1d;

struct Row {
    name: String,
    run: Box<dyn FnOnce() -> Times>,
}

fn row(name: impl Into<String>, run: impl FnOnce() -> Times + 'static) -> Row {
    Row {
        name: name.into(),
        run: Box::new(run),
    }
}

fn main() {
    let part = args().nth(1).unwrap_or_default();
    let timed = table("Rust", rust_rows(), &part);
    growth(&timed);
    beside_speex(&part);
}

fn rust_rows() -> Vec<Row> {
    let mut rows = vec![
        row("forward, 512 samples", forward),
        row("inverse, 257 bins", inverse),
        row("complex forward, 256 points", complex_forward),
        row("narrow, 512 numbers", || narrow(None, call_by_call)),
        row("narrow_list, 512 numbers", || {
            narrow(None, aspeyruni::narrow_list)
        }),
        row("narrow_list, 512 numbers, one in 16 a zero", || {
            narrow(Some(16), aspeyruni::narrow_list)
        }),
        row("narrow_list, 512 numbers in lists of 16", || {
            narrow(None, one_by_one)
        }),
    ];
    for tail in [64, 200] {
        for (near, pair) in [(QUARTER, "a pair with update"), (LOUD, "a frozen pair")] {
            let name = format!("Rho, {} taps, {pair}", 16 * tail);
            rows.push(row(name, move || rho(tail, near)));
        }
    }
    for partitions in PARTITIONS {
        for suppress in [true, false] {
            let name = block_name(partitions, suppress);
            rows.push(row(name, move || tau(partitions, suppress, BLOCK, A_BLOCK)));
        }
    }
    for cut in [1, 16, 160, 256] {
        let name = format!("Tau, 256 pairs in calls of {cut}, P = 4, suppression on");
        rows.push(row(name, move || tau(4, true, cut, FIVE_BLOCKS)));
    }
    rows
}

/// bench/plot knows these rows by it.
fn block_name(partitions: usize, suppress: bool) -> String {
    let says = if suppress { "on" } else { "off" };
    format!("Tau, a block, P = {partitions}, suppression {says}")
}

/// Of the rows whose name has `part` in it; of the others nothing is set up. Gives what it printed.
fn table(other: &str, mut rows: Vec<Row>, part: &str) -> Vec<(String, Times)> {
    rows.retain(|row| row.name.contains(part));
    if !rows.is_empty() {
        println!("| | {other}, ns | Rattle, ns | ratio | its 10th to 90th percentile |");
        println!("|---|---|---|---|---|");
    }
    let mut timed = Vec::new();
    for Row { name, run } in rows {
        let times = run();
        let ([a, b], [low, ratio, high]) = (times.sides, times.ratios);
        println!("| {name} | {a:.0} | {b:.0} | {ratio:.2} | {low:.2} to {high:.2} |");
        timed.push((name, times));
    }
    timed
}

/// What a partition adds to a block's time: the rise from the row with the fewest to that with the most, where both were timed.
fn growth(timed: &[(String, Times)]) {
    let [fewest, .., most] = PARTITIONS;
    let sides = |partitions| {
        let name = block_name(partitions, true);
        let row = timed.iter().find(|row| row.0 == name)?;
        Some(row.1.sides)
    };
    if let (Some(low), Some(high)) = (sides(fewest), sides(most)) {
        let [rust, port] = from_fn(|side| (high[side] - low[side]) / (most - fewest) as f64);
        println!();
        print!("Each further partition (P = {fewest} to {most}, suppression on): ");
        println!("Rust {rust:.0} ns, Rattle {port:.0} ns.");
    }
}

/// A canceller of as many taps, alone beside no suppression and with its preprocessor beside suppression.
#[cfg(speexdsp)]
fn beside_speex(part: &str) {
    let mut rows = Vec::new();
    for partitions in [4, 13] {
        let theirs = format!("SpeexDSP, {} taps, canceller", BLOCK * partitions);
        let ours = format!("Tau, P = {partitions}, suppression");
        let alone = format!("{theirs} alone; {ours} off");
        let followed = format!("{theirs} and preprocessor; {ours} on");
        rows.push(row(alone, move || speex(partitions, false)));
        rows.push(row(followed, move || speex(partitions, true)));
    }
    println!();
    table("SpeexDSP", rows, part);
}

#[cfg(not(speexdsp))]
fn beside_speex(_: &str) {
    println!();
    println!("SpeexDSP (Debian's libspeexdsp-dev) is not on this machine: no rows beside it.");
}

fn forward() -> Times {
    let mut sound = Noise::sound(SEED);
    let mut fft = RealFft::new(SAMPLES);
    let mut bins = Vec::new();
    let mut out = [0.0; SPECTRUM];
    race(
        A_TRANSFORM,
        || from_fn(|_| sound.number() as f32),
        |input: &mut [f32; SAMPLES]| {
            fft.forward(input, &mut bins);
            black_box(&bins);
        },
        |input| {
            aspeyruni::forward(input, &mut out);
            black_box(&out);
        },
    )
}

/// Of spectra that forward gave.
fn inverse() -> Times {
    let mut sound = Noise::sound(SEED);
    let mut maker = RealFft::new(SAMPLES);
    let mut fft = RealFft::new(SAMPLES);
    let mut samples = Vec::new();
    let mut out = [0.0; SAMPLES];
    race(
        A_TRANSFORM,
        || {
            let input: [f32; SAMPLES] = from_fn(|_| sound.number() as f32);
            let mut bins = Vec::new();
            maker.forward(&input, &mut bins);
            let flat = numbers(&bins);
            (bins, flat)
        },
        |(bins, _): &mut (Vec<Complex>, Vec<f64>)| {
            fft.inverse(bins, &mut samples);
            black_box(&samples);
        },
        |(_, flat)| {
            aspeyruni::inverse(flat, &mut out);
            black_box(&out);
        },
    )
}

fn complex_forward() -> Times {
    let mut sound = Noise::sound(SEED);
    let fft = ComplexFft::new(POINTS / 2);
    race(
        A_TRANSFORM,
        || {
            let flat: Vec<f64> = (0..POINTS).map(|_| sound.number()).collect();
            (complexes(&flat), flat)
        },
        |(points, _): &mut (Vec<Complex>, Vec<f64>)| {
            fft.forward(points);
            black_box(&points);
        },
        |(_, flat)| {
            aspeyruni::complex_forward(flat);
            black_box(&flat);
        },
    )
}

/// The Rust's is an instruction, which takes several numbers at once and which Rattle does not have. One in so many numbers is a zero,
/// or none. What the port answers is not looked at.
fn narrow<T>(zeros: Option<u64>, port: fn(&[f64], &mut [f32]) -> T) -> Times {
    let (mut sound, mut choice) = (Noise::sound(SEED), Random(OTHER_SEED));
    let mut number = move || {
        let x = sound.number();
        let is_zero = zeros.is_some_and(|one_in| choice.word() % one_in == 0);
        if is_zero {
            0.0
        } else {
            x
        }
    };
    race(
        A_TRANSFORM,
        || (from_fn(|_| number()), [0.0; SAMPLES]),
        |(from, to): &mut ([f64; SAMPLES], [f32; SAMPLES])| {
            for (x, y) in from.iter().zip(to.iter_mut()) {
                *y = *x as f32;
            }
            black_box(&to);
        },
        |(from, to)| {
            port(from, to);
            black_box(&to);
        },
    )
}

fn call_by_call(from: &[f64], to: &mut [f32]) {
    for (x, y) in from.iter().zip(to) {
        *y = aspeyruni::narrow(*x);
    }
}

/// A list of fewer than 32 numbers is narrowed number by number.
fn one_by_one(from: &[f64], to: &mut [f32]) {
    for (from, to) in from.chunks(16).zip(to.chunks_mut(16)) {
        aspeyruni::narrow_list(from, to);
    }
}

/// Samples of a kind, more at each call.
fn source(seed: u64, [base, mask]: Kind) -> impl FnMut(usize) -> Vec<f32> {
    let mut noise = Noise {
        word: seed,
        base,
        mask,
    };
    move |count| (0..count).map(|_| noise.sample()).collect()
}

/// A pair at 16 kHz, of a stream that goes on. Far is sound, whose peak is from 1 to 2. Near is below half of
/// that, so that every pair updates the filter, or above it, so that every pair is frozen.
fn rho(tail: u16, near: Kind) -> Times {
    let (mut near, mut far) = (source(OTHER_SEED, near), source(SEED, SOUND));
    let mut engine = RhoCanceller::new(16_000, tail);
    let mut state = engine.read_state();
    let mut weights = engine.read_weights().to_vec();
    let mut history = engine.read_history().to_vec();
    let mut delivered = Vec::new();
    let mut out = [0.0; PAIRS];
    race(
        PAIRS_OF_RHO,
        || [near(PAIRS), far(PAIRS)],
        |[near, far]| {
            delivered.clear();
            let Ok(()) = engine.process(near, far, &mut delivered);
            black_box(&delivered);
        },
        |[near, far]| {
            state = rho::process(state, &mut weights, &mut history, near, far, &mut out).state;
            black_box(&out);
        },
    )
}

/// A block of a stream that goes on, which comes in calls of so many pairs.
fn tau(partitions: usize, suppress: bool, cut: usize, plan: Plan) -> Times {
    let mut rust = RustTau::created(partitions, suppress);
    let mut port = PortTau::created(partitions, suppress);
    race(
        plan,
        echo(BLOCK * plan.things),
        |[near, far]| {
            for (near, far) in near.chunks(cut).zip(far.chunks(cut)) {
                rust.process(near, far);
            }
        },
        |[near, far]| {
            for (near, far) in near.chunks(cut).zip(far.chunks(cut)) {
                port.process(near, far);
            }
        },
    )
}

/// The same stream beside SpeexDSP, which gets it in samples of 16 bits. They are made before it is timed.
#[cfg(speexdsp)]
fn speex(partitions: usize, suppress: bool) -> Times {
    let mut theirs = speex::Speex::created(BLOCK * partitions, suppress);
    let mut port = PortTau::created(partitions, suppress);
    let mut pairs = echo(BLOCK);
    race(
        A_BLOCK,
        || {
            let pairs = pairs();
            let words = pairs.each_ref().map(|samples| speex::words(samples));
            (words, pairs)
        },
        |([near, far], _)| theirs.process(near, far),
        |(_, [near, far])| port.process(near, far),
    )
}

/// The next pairs of a stream, near and far. Far is sound, and near half of it with sound of its own a hundredth as loud, so that
/// the shadow learns and the output follows it.
fn echo(pairs: usize) -> impl FnMut() -> [Vec<f32>; 2] {
    let (mut far, mut own) = (source(SEED, SOUND), source(OTHER_SEED, SOUND));
    move || {
        let (far, own) = (far(pairs), own(pairs));
        let near = own.iter().zip(&far).map(|(a, x)| 0.5 * x + 0.01 * a);
        [near.collect(), far]
    }
}

/// The Rust's engine itself, completed with document 01's rules (oracle/rust). It appends to a list that is its caller's: here one
/// for all calls, which is emptied before each, so that no call pays for a list of its own.
struct RustTau {
    engine: rust_tau::TauCanceller,
    delivered: Vec<f32>,
}

impl RustTau {
    /// At 16 kHz 16 ms are a partition.
    fn created(partitions: usize, suppress: bool) -> RustTau {
        let suppression = if suppress {
            Suppression::Conservative
        } else {
            Suppression::Off
        };
        RustTau {
            engine: rust_tau::TauCanceller::new(16_000, 16 * partitions as u16, suppression),
            delivered: Vec::new(),
        }
    }

    /// A block without the update would be a fast one.
    fn process(&mut self, near: &[f32], far: &[f32]) {
        self.delivered.clear();
        let Ok(()) = self.engine.process(near, far, &mut self.delivered);
        let taken = &self.engine.taken;
        assert!(!taken.diverged && !taken.shadow_diverged && !taken.rescued);
        black_box(&self.delivered);
    }
}

/// The port's last answer, with the state in it, the buffers that it is lent, and where it delivers.
struct PortTau {
    answer: tau::Answer,
    buffers: [Vec<f64>; 4],
    out: [f32; BLOCK],
}

impl PortTau {
    fn created(partitions: usize, suppress: bool) -> PortTau {
        let sizes = [SPECTRUM, SPECTRUM, SPECTRUM, tau::BINS];
        let mut buffers = sizes.map(|n| vec![0.0; n * partitions]);
        let lent = buffers.each_mut().map(|b| &mut b[..]);
        PortTau {
            answer: tau::create(partitions, suppress, lent).into(),
            buffers,
            out: [0.0; BLOCK],
        }
    }

    /// A refused call would be a fast one.
    fn process(&mut self, near: &[f32], far: &[f32]) {
        let lent = self.buffers.each_mut().map(|b| &mut b[..]);
        tau::process_on(&mut self.answer, lent, near, far, &mut self.out);
        assert_eq!(self.answer.refusal, 0);
        black_box(&self.out);
    }
}
