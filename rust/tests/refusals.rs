//! The engines' six refusals through the owners: each where it can occur, and a call that is refused changes nothing, neither the engine
//! nor the output buffer. Those of records are in records.rs.

mod common;

use aspeyruni::raw::tau::{LENT, NUMBERS};
use aspeyruni::{Refusal, Rho, RhoReport, Tau, MAX_PAIRS};
use common::sound;

const NOISE: f32 = 0.625;

/// One that has run some blocks, and has 200 pairs waiting.
fn tau() -> Tau {
    let mut tau = Tau::new(2, true).unwrap();
    let (near, far) = (sound(1, 1_224), sound(2, 1_224));
    let report = tau.process(&near, &far, &mut [0.0; 1_280]).unwrap();
    assert_eq!((report.delivered, tau.carried()), (1_024, 200));
    tau
}

fn rho() -> Rho {
    let mut rho = Rho::new(8_000, 16).unwrap();
    let (near, far) = (sound(3, 500), sound(4, 500));
    let report = rho.process(&near, &far, &mut [0.0; 500]).unwrap();
    assert_eq!((report.delivered, rho.taps()), (500, 128));
    rho
}

/// All fields of the state, which `Debug` prints with every bit that counts, and all numbers of the buffers.
fn all_of_tau(tau: &Tau) -> (String, Vec<u64>) {
    let numbers = tau.buffers().concat().iter().map(|x| x.to_bits()).collect();
    (format!("{:?}", tau.state()), numbers)
}

fn all_of_rho(rho: &Rho) -> (String, Vec<u32>) {
    let numbers = rho.buffers().concat().iter().map(|x| x.to_bits()).collect();
    (format!("{:?}", rho.state()), numbers)
}

/// What the next call, and a flush after it, deliver and report.
fn next_of_tau(tau: &mut Tau) -> (Vec<u32>, String) {
    let (near, far) = (sound(5, 700), sound(6, 700));
    let mut out = vec![NOISE; 1_024];
    let first = tau.process(&near, &far, &mut out).unwrap();
    let last = tau.flush(&mut out[first.delivered..]).unwrap();
    assert_eq!((first.delivered, last.delivered), (768, 132));
    let bits = out.iter().map(|x| x.to_bits()).collect();
    (bits, format!("{first:?} {last:?}"))
}

fn next_of_rho(rho: &mut Rho) -> (Vec<u32>, RhoReport) {
    let (near, far) = (sound(7, 700), sound(8, 700));
    let mut out = vec![NOISE; 700];
    let report = rho.process(&near, &far, &mut out).unwrap();
    (out.iter().map(|x| x.to_bits()).collect(), report)
}

/// With a short message: what is compared has thousands of numbers.
fn assert_unchanged(refused: &str, is_unchanged: bool) {
    assert!(is_unchanged, "{refused}: refused, and something changed");
}

/// Lengths of near and far, and of the output buffer, that are refused where 200 pairs wait. Where a call is wrong in several ways, the
/// least of the three refusals is given.
const REFUSED_BY_TAU: [(usize, usize, usize, Refusal); 8] = [
    (1, 0, 300, Refusal::Lengths),
    (0, 1, 300, Refusal::Lengths),
    (4_098, 4_097, 0, Refusal::Lengths),
    (MAX_PAIRS + 1, MAX_PAIRS + 1, 5_000, Refusal::Pairs),
    (MAX_PAIRS + 1, MAX_PAIRS + 1, 0, Refusal::Pairs),
    (56, 56, 255, Refusal::Room),
    (56, 56, 0, Refusal::Room),
    (MAX_PAIRS, MAX_PAIRS, MAX_PAIRS - 1, Refusal::Room),
];

const REFUSED_BY_RHO: [(usize, usize, usize, Refusal); 6] = [
    (1, 0, 300, Refusal::Lengths),
    (4_098, 4_097, 0, Refusal::Lengths),
    (MAX_PAIRS + 1, MAX_PAIRS + 1, 5_000, Refusal::Pairs),
    (1, 1, 0, Refusal::Room),
    (300, 300, 299, Refusal::Room),
    (MAX_PAIRS, MAX_PAIRS, MAX_PAIRS - 1, Refusal::Room),
];

#[test]
fn a_refused_process_of_tau_changes_nothing() {
    for (near, far, room, refusal) in REFUSED_BY_TAU {
        let mut tau = tau();
        let mut fellow = tau.clone();
        let mut out = vec![NOISE; room];
        let answer = tau.process(&sound(9, near), &sound(10, far), &mut out);
        let refused = format!("{near} near, {far} far, room for {room}");
        assert_eq!(answer, Err(refusal), "{refused}");
        assert_unchanged(&refused, out.iter().all(|x| *x == NOISE));
        assert_unchanged(&refused, all_of_tau(&tau) == all_of_tau(&fellow));
        assert_unchanged(&refused, next_of_tau(&mut tau) == next_of_tau(&mut fellow));
    }
}

#[test]
fn a_refused_flush_of_tau_changes_nothing() {
    for room in [0, 199] {
        let mut tau = tau();
        let mut fellow = tau.clone();
        let mut out = vec![NOISE; room];
        let refused = format!("a flush with room for {room}");
        assert_eq!(tau.flush(&mut out), Err(Refusal::Room), "{refused}");
        assert_unchanged(&refused, out.iter().all(|x| *x == NOISE));
        assert_unchanged(&refused, all_of_tau(&tau) == all_of_tau(&fellow));
        assert_unchanged(&refused, next_of_tau(&mut tau) == next_of_tau(&mut fellow));
    }
    assert_eq!(tau().flush(&mut [NOISE; 200]).unwrap().delivered, 200);
}

#[test]
fn a_refused_process_of_rho_changes_nothing() {
    for (near, far, room, refusal) in REFUSED_BY_RHO {
        let mut rho = rho();
        let mut fellow = rho.clone();
        let mut out = vec![NOISE; room];
        let answer = rho.process(&sound(9, near), &sound(10, far), &mut out);
        let refused = format!("{near} near, {far} far, room for {room}");
        assert_eq!(answer, Err(refusal), "{refused}");
        assert_unchanged(&refused, out.iter().all(|x| *x == NOISE));
        assert_unchanged(&refused, all_of_rho(&rho) == all_of_rho(&fellow));
        assert_unchanged(&refused, next_of_rho(&mut rho) == next_of_rho(&mut fellow));
    }
}

/// The largest number would overflow, and ask for more than there is, if anything were made of it.
#[test]
fn settings_outside_their_range_are_refused() {
    for partitions in [0, 33, usize::MAX / NUMBERS, usize::MAX] {
        let refusal = Tau::new(partitions, true).unwrap_err();
        assert_eq!(refusal, Refusal::Setting, "{partitions} partitions");
    }
    for (rate, tail) in [
        (7_999, 16),
        (48_001, 16),
        (8_000, 1_001),
        (48_000, 171),
        (0, 0),
        (u32::MAX, u32::MAX),
    ] {
        let refusal = Rho::new(rate, tail).unwrap_err();
        assert_eq!(refusal, Refusal::Setting, "rate {rate}, tail {tail}");
    }
}

#[test]
fn settings_at_the_ends_of_their_ranges_are_accepted() {
    for partitions in [1, 32] {
        let tau = Tau::new(partitions, false).unwrap();
        assert_eq!((tau.partitions(), tau.suppress()), (partitions, false));
        let lengths = LENT.map(|numbers| numbers * partitions);
        assert_eq!(tau.buffers().map(<[f64]>::len), lengths);
    }
    for (rate, tail, taps) in [(8_000, 0, 1), (8_000, 1_000, 8_000), (48_000, 170, 8_160)] {
        let rho = Rho::new(rate, tail).unwrap();
        assert_eq!(
            (rho.taps(), rho.buffers().map(<[f32]>::len)),
            (taps, [taps; 2])
        );
    }
}

#[test]
fn parts_with_a_buffer_of_another_length_are_refused() {
    let (tau, rho) = (tau(), rho());
    for (which, numbers) in LENT.into_iter().enumerate() {
        for length in [0, numbers, 2 * numbers - 1, 2 * numbers + 1, 4 * numbers] {
            let mut buffers = tau.buffers().map(<[f64]>::to_vec);
            buffers[which].resize(length, 0.0);
            let refusal = Tau::from_parts(tau.state(), buffers).unwrap_err();
            assert_eq!(refusal, Refusal::Buffer, "buffer {which} of {length}");
        }
    }
    for length in [0, 127, 129] {
        for which in 0..2 {
            let mut buffers = rho.buffers().map(<[f32]>::to_vec);
            buffers[which].resize(length, 0.0);
            let refusal = Rho::from_parts(rho.state(), buffers).unwrap_err();
            assert_eq!(refusal, Refusal::Buffer, "buffer {which} of {length}");
        }
    }
}

#[test]
fn parts_with_a_number_outside_its_range_are_refused() {
    let (tau, rho) = (tau(), rho());
    let mut states = [*tau.state(); 6];
    states[0].partitions = 0;
    states[1].partitions = 33;
    states[2].far.head = 2;
    states[3].carried = 256;
    states[4].mic.paths.rescue_streak = 8;
    states[5].mic.detector.dtd_blocks = 65;
    for state in &states {
        let refusal = Tau::from_parts(state, tau.buffers().map(<[f64]>::to_vec)).unwrap_err();
        assert_eq!(refusal, Refusal::State);
    }
    let mut states = [*rho.state(); 6];
    states[0].taps = 0;
    states[1].taps = 8_193;
    states[2].pos = 128;
    states[3].hangover_samples = 119;
    states[4].hangover_samples = 721;
    states[5].hangover_remaining = rho.state().hangover_samples + 1;
    for state in &states {
        let refusal = Rho::from_parts(state, rho.buffers().map(<[f32]>::to_vec)).unwrap_err();
        assert_eq!(refusal, Refusal::State);
    }
}

/// As hosts of the raw interface know them, each with a sentence of its own.
#[test]
fn a_refusal_has_its_number_and_its_sentence() {
    let all = [
        Refusal::Setting,
        Refusal::Buffer,
        Refusal::Lengths,
        Refusal::Pairs,
        Refusal::Room,
        Refusal::State,
        Refusal::Mark,
        Refusal::Header,
        Refusal::Short,
    ];
    assert_eq!(all.map(Refusal::number), [1, 2, 3, 4, 5, 6, 7, 8, 9]);
    let mut sentences = all.map(|refusal| refusal.to_string()).to_vec();
    assert!(sentences.iter().all(|sentence| sentence.contains(' ')));
    sentences.sort();
    sentences.dedup();
    assert_eq!(sentences.len(), all.len());
}
