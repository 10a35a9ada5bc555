//! How many samples went over: of an inverse transform, and of a block by each of its inverse transforms alone.

use aspeyruni::raw::tau::{self, BINS, BLOCK, NUMBERS};
use aspeyruni::raw::{self, Inverted};
use aspeyruni::{Reason, Refusal, Report, Tau};

const SAMPLES: usize = 2 * BLOCK;

/// No f32 is as large, nor half of it.
const BEYOND: f64 = 1e40;

/// The least number that goes over, 2^128 - 2^103, and the number before it.
const LEAST_OVER: f64 = (((1 << 25) - 1) * (1u128 << 103)) as f64;
const BELOW: f64 = LEAST_OVER - (1u128 << 75) as f64;

const SILENCE: [f32; BLOCK] = [0.0; BLOCK];
const ONES: [f32; BLOCK] = [1.0; BLOCK];

fn impulse(place: usize, size: f32) -> [f32; BLOCK] {
    let mut samples = SILENCE;
    samples[place] = size;
    samples
}

/// Every sample of the inverse is a 512th of the number.
fn constant(x: f64) -> Vec<f64> {
    let mut numbers = vec![0.0; NUMBERS];
    numbers[0] = x;
    numbers
}

/// The first sample of the inverse is the number, and the others are 0, but for what is rounded. As a filter's weights it takes far by
/// the number.
fn flat(x: f64) -> Vec<f64> {
    [x, 0.0].repeat(BINS)
}

fn inverted(spectrum: &[f64]) -> (usize, [f32; SAMPLES]) {
    let mut samples = [0.25; SAMPLES];
    let Inverted { refusal, overs } = raw::inverse(spectrum, &mut samples);
    assert_eq!(refusal, raw::refusal::ACCEPTED);
    (overs, samples)
}

#[test]
fn an_inverse_counts_its_samples() {
    assert_eq!(inverted(&constant(0.0)), (0, [0.0; SAMPLES]));
    assert_eq!(inverted(&constant(512.0 * BELOW)), (0, [f32::MAX; SAMPLES]));
    let all = [f32::INFINITY; SAMPLES];
    assert_eq!(inverted(&constant(512.0 * LEAST_OVER)), (SAMPLES, all));
    let (overs, samples) = inverted(&flat(-BEYOND));
    assert_eq!((overs, samples[0]), (1, f32::NEG_INFINITY));

    // the last bin takes the odd samples off again
    let mut every_other = constant(256.0 * BEYOND);
    every_other[2 * (BINS - 1)] = 256.0 * BEYOND;
    assert_eq!(inverted(&every_other).0, SAMPLES / 2);
}

#[test]
fn what_is_not_finite_before_does_not_count() {
    for x in [f64::INFINITY, f64::NEG_INFINITY, f64::NAN] {
        let (overs, samples) = inverted(&constant(x));
        assert!(samples.iter().any(|sample| !sample.is_finite()), "{x}");
        assert_eq!(overs, 0, "{x}");
    }
}

#[test]
fn a_refused_inverse_counts_nothing() {
    let refused = Inverted {
        refusal: Refusal::Buffer.number(),
        overs: 0,
    };
    for (given, room) in [(513, 512), (515, 512), (514, 511), (514, 513), (0, 0)] {
        let mut samples = vec![0.25; room];
        let answer = raw::inverse(&vec![1e300; given], &mut samples);
        assert_eq!(answer, refused, "{given} numbers, {room} samples");
        assert!(samples.iter().all(|sample| *sample == 0.25));
    }
}

/// An engine of one partition that has heard these blocks of far sound while near was silent, so that its filters have learnt nothing. Then
/// it has these weights, shadow and output.
fn engine(suppress: bool, heard: &[[f32; BLOCK]], weights: [Vec<f64>; 2]) -> Tau {
    let mut tau = Tau::new(1, suppress).unwrap();
    for far in heard {
        assert_eq!(process(&mut tau, &SILENCE, far).overs, 0);
    }
    let [.., spectra, powers] = tau.buffers().map(<[f64]>::to_vec);
    let [shadow, output] = weights;
    Tau::from_parts(tau.state(), [shadow, output, spectra, powers]).unwrap()
}

fn process(tau: &mut Tau, near: &[f32], far: &[f32]) -> Report {
    let mut out = vec![0.0; Tau::room(near.len())];
    tau.process(near, far, &mut out).unwrap()
}

fn none() -> Vec<f64> {
    constant(0.0)
}

/// All 512 of each, with suppression and without.
#[test]
fn either_filters_estimate_counts() {
    for suppress in [false, true] {
        let told = |shadow, output| {
            let mut tau = engine(suppress, &[ONES], [shadow, output]);
            let report = process(&mut tau, &SILENCE, &ONES);
            (report.overs, report.reason)
        };
        let large = || constant(BEYOND);
        assert_eq!(told(none(), none()), (0, Reason::NotEstablished));
        assert_eq!(told(large(), none()), (512, Reason::NotEstablished));
        assert_eq!(told(none(), large()), (512, Reason::OutputDiverged));
        assert_eq!(told(large(), large()), (1024, Reason::OutputDiverged));
        // no f64 holds this one either: it is infinite before it is narrowed
        let larger = constant(f64::MAX);
        assert_eq!(told(none(), larger), (0, Reason::OutputDiverged));
    }
}

/// The half that a block uses of an estimate is the later one, where the far end's new samples are. Of the other the count alone tells.
#[test]
fn the_half_that_is_dropped_counts() {
    let mut tau = engine(false, &[], [none(), flat(BEYOND)]);
    let used = process(&mut tau, &SILENCE, &ONES);
    assert_eq!((used.overs, used.reason), (256, Reason::OutputDiverged));
    assert_eq!(used.divergence_resets, 1);

    let mut tau = engine(false, &[ONES], [none(), flat(BEYOND)]);
    let dropped = process(&mut tau, &SILENCE, &SILENCE);
    assert_eq!((dropped.overs, dropped.reason), (256, Reason::FarNotActive));
    assert_eq!(dropped.divergence_resets, 0);
}

/// From creation: of a quiet click and a near end that is far too loud, the gradient is one sample that no f32 holds. Where the click comes
/// after its echo, that sample is one that the update drops.
#[test]
fn the_update_counts() {
    for (partitions, click, resets) in [(1, 0, 1), (1, 9, 0), (3, 9, 0)] {
        let mut tau = Tau::new(partitions, false).unwrap();
        let report = process(&mut tau, &impulse(0, 1e38), &impulse(click, 0.03125));
        assert_eq!(report.overs, 1, "P = {partitions}, {click}");
        assert_eq!(
            report.divergence_resets, resets,
            "P = {partitions}, {click}"
        );
    }
}

#[test]
fn the_suppressor_counts_where_it_runs() {
    for (suppress, overs) in [(false, 0), (true, 1)] {
        let fresh = Tau::new(1, suppress).unwrap();
        let mut state = *fresh.state();
        state.mic.suppressor.gain = [4.0 * BEYOND; BINS];
        let mut tau = Tau::from_parts(&state, fresh.buffers().map(<[f64]>::to_vec)).unwrap();
        let report = process(&mut tau, &impulse(7, 1.0), &impulse(0, 0.5));
        assert_eq!(report.overs, overs, "suppression {suppress}");
    }
}

/// The first block clears the shadow.
#[test]
fn of_several_blocks_the_last_one_is_told() {
    let large = engine(false, &[ONES], [constant(BEYOND), none()]);
    let both = process(&mut large.clone(), &[0.0; 512], &[1.0; 512]);
    assert_eq!((both.delivered, both.overs), (512, 0));
    let first = process(&mut large.clone(), &SILENCE, &ONES);
    assert_eq!((first.delivered, first.overs), (256, 512));
}

/// And then there is a flush, whose block has few far samples, and all 512 go over all the same.
#[test]
fn a_call_without_a_block_says_0() {
    let mut tau = engine(false, &[ONES], [constant(BEYOND), none()]);
    assert_eq!(process(&mut tau, &[], &[]).overs, 0);
    assert_eq!(process(&mut tau, &[0.0; 9], &[1.0; 9]).overs, 0);
    let flushed = tau.flush(&mut [0.0; 9]).unwrap();
    assert_eq!((flushed.delivered, flushed.overs), (9, 512));
    assert_eq!(flushed.reason, Reason::FlushBlock);
    assert_eq!(tau.flush(&mut []).unwrap().overs, 0);
}

/// The one before is not told again.
#[test]
fn a_refused_call_says_0() {
    let large = engine(false, &[], [constant(BEYOND), none()]);
    let mut buffers = large.buffers().map(<[f64]>::to_vec);
    let mut out = [0.0; BLOCK];
    let lent = buffers.each_mut().map(Vec::as_mut_slice);
    let mut answer = tau::process(*large.state(), lent, &SILENCE, &ONES, &mut out);
    assert_eq!((answer.refusal, answer.overs), (0, 512));
    let lent = buffers.each_mut().map(Vec::as_mut_slice);
    tau::process_on(&mut answer, lent, &SILENCE, &[], &mut out);
    assert_eq!(answer.refusal, Refusal::Lengths.number());
    assert_eq!(answer.overs, 0);
}
