//! The powers that Tau keeps of its far spectra: from creation on they are those of the spectra, another length of them is refused, and
//! false ones are followed until they are written over.

mod common;

use aspeyruni::raw::refusal;
use aspeyruni::raw::tau::{self, TauCanceller, BINS, BLOCK, LENT};
use aspeyruni::{Refusal, Tau};
use common::sound;

const NOISE: f64 = 0.625;

fn bits(numbers: &[f64]) -> Vec<u64> {
    numbers.iter().map(|x| x.to_bits()).collect()
}

/// By the spectra, with both products rounded.
fn worked_out(spectra: &[f64]) -> Vec<f64> {
    let bins = spectra.chunks_exact(2);
    bins.map(|bin| bin[0] * bin[0] + bin[1] * bin[1]).collect()
}

fn assert_true(tau: &Tau, when: &str) {
    let [_, _, spectra, powers] = tau.buffers();
    assert_eq!(powers.len(), BINS * tau.partitions());
    let are_true = bits(powers) == bits(&worked_out(spectra));
    assert!(are_true, "P = {}: {when}", tau.partitions());
}

fn process(tau: &mut Tau, near: &[f32], far: &[f32]) {
    let mut out = vec![0.0; Tau::room(near.len())];
    let _ = tau.process(near, far, &mut out).unwrap();
}

/// In blocks that adapt and in those that do not: without far sound, and of a flush. Every partition has some in the end.
#[test]
fn from_creation_on_they_are_those_of_the_spectra() {
    for partitions in [1, 2, 3, 4, 32] {
        let mut tau = Tau::new(partitions, true).unwrap();
        assert_true(&tau, "a creation");
        for count in [256, 100, 0, 700, 4_096, 4_096] {
            process(&mut tau, &sound(1, count), &sound(2, count));
            assert_true(&tau, "far sound");
        }
        assert!(tau.buffers()[3].iter().all(|power| *power > 0.0));
        process(&mut tau, &sound(3, 300), &[0.0; 300]);
        assert_true(&tau, "far silence");
        let refused = tau.process(&[0.0], &[], &mut []);
        assert_eq!(refused, Err(Refusal::Lengths));
        assert_true(&tau, "a refused call");
        process(&mut tau, &sound(4, 300), &sound(5, 300));
        for _ in 0..2 {
            let _ = tau.flush(&mut [0.0; BLOCK - 1]).unwrap();
            assert_true(&tau, "a flush");
        }
        tau.reset();
        assert_true(&tau, "a reset");
        process(&mut tau, &sound(6, 600), &sound(7, 600));
        assert_true(&tau, "far sound after a reset");
    }
}

/// What a raw call is lent: noise all over, so that it shows where something is written.
struct Buffers {
    lent: [Vec<f64>; 4],
    out: Vec<f32>,
}

impl Buffers {
    fn noise(lengths: [usize; 4]) -> Buffers {
        Buffers {
            lent: lengths.map(|length| vec![NOISE; length]),
            out: vec![NOISE as f32; 4 * BLOCK],
        }
    }

    fn parts(&mut self) -> (tau::Lent<'_>, &mut [f32]) {
        let lent = self.lent.each_mut().map(Vec::as_mut_slice);
        (lent, &mut self.out)
    }

    fn is_as_it_was(&self) -> bool {
        let is_noise = |numbers: &Vec<f64>| numbers.iter().all(|x| *x == NOISE);
        self.lent.iter().all(is_noise) && self.out.iter().all(|x| *x == NOISE as f32)
    }
}

/// One that has 100 pairs waiting, so that a flush of it runs a block.
fn waiting(partitions: usize) -> TauCanceller {
    let mut tau = Tau::new(partitions, true).unwrap();
    process(&mut tau, &sound(8, 612), &sound(9, 612));
    *tau.state()
}

/// The calls from a state, each with the refusal and the state that it answers.
fn called(name: &str, state: TauCanceller, buffers: &mut Buffers) -> (u32, TauCanceller) {
    let (lent, out) = buffers.parts();
    match name {
        "process" => {
            let (near, far) = (sound(10, 600), sound(11, 600));
            let answer = tau::process(state, lent, &near, &far, out);
            (answer.refusal, answer.state)
        }
        "flush" => {
            let answer = tau::flush(state, lent, out);
            (answer.refusal, answer.state)
        }
        _ => {
            let started = tau::reset(state, lent);
            (started.refusal, started.state)
        }
    }
}

/// Whatever was in the buffers.
#[test]
fn a_creation_and_a_reset_write_zeros() {
    for partitions in [1, 3] {
        let lengths = LENT.map(|numbers| numbers * partitions);
        let mut buffers = Buffers::noise(lengths);
        let started = tau::create(partitions, true, buffers.parts().0);
        assert_eq!(started.refusal, refusal::ACCEPTED);
        let zeros = lengths.map(|length| vec![0; length]);
        assert_eq!(buffers.lent.each_ref().map(|each| bits(each)), zeros);

        let mut buffers = Buffers::noise(lengths);
        let (number, _) = called("reset", waiting(partitions), &mut buffers);
        assert_eq!(number, refusal::ACCEPTED);
        assert_eq!(buffers.lent.each_ref().map(|each| bits(each)), zeros);
    }
}

/// With the other three as they have to be.
#[test]
fn another_length_is_refused_and_nothing_is_written() {
    for partitions in [1, 3] {
        let right = BINS * partitions;
        for length in [0, 1, right - 1, right + 1, 2 * right] {
            let mut lengths = LENT.map(|numbers| numbers * partitions);
            lengths[3] = length;
            let mut buffers = Buffers::noise(lengths);
            let started = tau::create(partitions, true, buffers.parts().0);
            assert_eq!(started.refusal, refusal::BUFFER, "create, {length}");
            assert_eq!(started.state.partitions, 0, "create, {length}");

            let state = waiting(partitions);
            for name in ["process", "flush", "reset"] {
                let (number, left) = called(name, state, &mut buffers);
                assert_eq!(number, refusal::BUFFER, "{name}, {length}");
                let is_left = format!("{left:?}") == format!("{state:?}");
                assert!(is_left, "{name}, {length}: another state");
            }
            assert!(buffers.is_as_it_was(), "{length}: something was written");
        }
    }
}

/// The spectra are of far alone, so a fellow with true powers has them too.
#[test]
fn false_ones_are_followed_and_gone_after_p_blocks() {
    let mut fellow = Tau::new(3, false).unwrap();
    process(&mut fellow, &sound(12, 1_024), &sound(13, 1_024));
    let mut buffers = fellow.buffers().map(<[f64]>::to_vec);
    buffers[3].fill(-1e9);
    let mut tau = Tau::from_parts(fellow.state(), buffers).unwrap();
    for block in 1..=3 {
        let (near, far) = (sound(14 + block, BLOCK), sound(24 + block, BLOCK));
        process(&mut tau, &near, &far);
        process(&mut fellow, &near, &far);
        let left = tau.buffers()[3].iter().filter(|power| **power == -1e9);
        assert_eq!(left.count(), BINS * (3 - block as usize), "block {block}");
        let is_followed = tau.buffers()[0] != fellow.buffers()[0];
        assert!(is_followed, "block {block}: the shadow is its fellow's");
    }
    let is_of_far = bits(tau.buffers()[2]) == bits(fellow.buffers()[2]);
    assert!(is_of_far, "the spectra are not their fellow's");
    assert_true(&tau, "three blocks after false powers");
}

/// What the shadow's first bin is after one block of two impulses at one place, 0.5 in far and 1.0 in near, by the power that either
/// partition has before it. Of the two the block writes one, whose power is then 0.25.
fn learnt(power: f64) -> (f64, f64) {
    let fresh = Tau::new(2, false).unwrap();
    let mut state = *fresh.state();
    state.mic.far_power_mean = [1.0; BINS];
    let mut buffers = fresh.buffers().map(<[f64]>::to_vec);
    buffers[3].fill(power);
    let mut tau = Tau::from_parts(&state, buffers).unwrap();
    let (mut near, mut far) = ([0.0; BLOCK], [0.0; BLOCK]);
    (near[0], far[0]) = (1.0, 0.5);
    process(&mut tau, &near, &far);
    let shadow = tau.buffers()[0];
    let scale = tau.state().mic.detector.step_scale;
    (shadow[0] + shadow[2 * BINS], scale)
}

/// A bin's step is its factor, by its summed power and a mean of 1.0, over that power. True powers have a factor of 0.02 to 1.
#[test]
fn a_step_factor_may_leave_its_bounds_by_false_ones() {
    for (power, factor) in [(0.0, 0.0625), (-0.25, 0.02), (0.75, 1.0), (-2.25, 4.0)] {
        let (weight, scale) = learnt(power);
        let expected = 0.5 * factor * scale / (0.25 + power + 1e-3);
        let is_close = (weight - expected).abs() <= 1e-6 * expected.abs();
        assert!(is_close, "{power}: {weight}, not {expected}");
    }
}
