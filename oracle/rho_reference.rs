//! The Rust's Rho, called as the port's is: a state goes in and comes back, the buffers are lent, and document 01's refusals, of which
//! the Rust has none, come first.

#![allow(dead_code)] // a driver uses a part

use crate::aspeyruni::rho::{Answer, Report, RhoCanceller as State, Started};
use crate::canceller::EchoCanceller;
use crate::rust_rho::RhoCanceller;

pub const MOST_TAPS: usize = 8192;
pub const MOST_PAIRS: usize = 4096;

impl Started {
    /// With nothing delivered and nothing reported.
    pub fn whole(self) -> Answer {
        Answer {
            refusal: self.refusal,
            state: self.state,
            ..Answer::default()
        }
    }
}

pub fn create(sample_rate: u32, tail_ms: u32, weights: &mut [f32], history: &mut [f32]) -> Started {
    let refused = |refusal| Started {
        refusal,
        state: State::default(),
    };
    if !(8_000..=48_000).contains(&sample_rate) || tail_ms > 1_000 {
        return refused(1);
    }
    let engine = RhoCanceller::new(sample_rate, tail_ms as u16);
    let state = engine.read_state();
    if state.taps > MOST_TAPS {
        return refused(1);
    }
    if [weights.len(), history.len()] != [state.taps; 2] {
        return refused(2);
    }
    keep(&engine, weights, history);
    Started { refusal: 0, state }
}

pub fn process(
    state: State,
    weights: &mut [f32],
    history: &mut [f32],
    near: &[f32],
    far: &[f32],
    out: &mut [f32],
) -> Answer {
    let refusal = match state_refusal(state, weights, history) {
        0 => pairs_refusal(near, far, out),
        refusal => refusal,
    };
    if refusal != 0 {
        return refused(refusal, state);
    }
    let mut engine = counting_from_zero(state, weights, history);
    let mut samples = Vec::new();
    let Ok(()) = engine.process(near, far, &mut samples);
    keep(&engine, weights, history);
    out[..samples.len()].copy_from_slice(&samples);
    answered(&engine, state, samples.len())
}

pub fn flush(state: State, weights: &[f32], history: &[f32]) -> Answer {
    let refusal = state_refusal(state, weights, history);
    if refusal != 0 {
        return refused(refusal, state);
    }
    let mut engine = counting_from_zero(state, weights, history);
    let mut samples = Vec::new();
    let Ok(()) = engine.flush(&mut samples);
    answered(&engine, state, samples.len())
}

pub fn reset(state: State, weights: &mut [f32], history: &mut [f32]) -> Started {
    let refusal = state_refusal(state, weights, history);
    if refusal != 0 {
        return Started { refusal, state };
    }
    let mut engine = RhoCanceller::set(state, weights, history);
    engine.reset();
    keep(&engine, weights, history);
    Started {
        refusal: 0,
        state: engine.read_state(),
    }
}

/// 6, then 2.
fn state_refusal(state: State, weights: &[f32], history: &[f32]) -> u32 {
    let in_range = (1..=MOST_TAPS).contains(&state.taps)
        && state.pos < state.taps
        && (120..=720).contains(&state.hangover_samples)
        && state.hangover_remaining <= state.hangover_samples;
    if !in_range {
        return 6;
    }
    if [weights.len(), history.len()] != [state.taps; 2] {
        return 2;
    }
    0
}

/// 3, then 4, then 5.
fn pairs_refusal(near: &[f32], far: &[f32], out: &[f32]) -> u32 {
    if near.len() != far.len() {
        return 3;
    }
    if near.len() > MOST_PAIRS {
        return 4;
    }
    if out.len() < near.len() {
        return 5;
    }
    0
}

fn refused(refusal: u32, state: State) -> Answer {
    Answer {
        refusal,
        delivered: 0,
        state,
        report: Report {
            divergence_resets: state.divergence_resets,
            double_talk: state.hangover_remaining > 0,
        },
    }
}

/// The Rust's count wraps at the largest number (`+= 1`, in a release build), and document 01 has it stay there. So the engine counts
/// a call's resets from 0, and `answered` adds them to those before.
fn counting_from_zero(mut state: State, weights: &[f32], history: &[f32]) -> RhoCanceller {
    state.divergence_resets = 0;
    RhoCanceller::set(state, weights, history)
}

fn answered(engine: &RhoCanceller, before: State, delivered: usize) -> Answer {
    let mut state = engine.read_state();
    let metrics = engine.metrics();
    state.divergence_resets = before
        .divergence_resets
        .saturating_add(metrics.divergence_resets);
    Answer {
        refusal: 0,
        delivered,
        state,
        report: Report {
            divergence_resets: state.divergence_resets,
            double_talk: metrics.double_talk,
        },
    }
}

fn keep(engine: &RhoCanceller, weights: &mut [f32], history: &mut [f32]) {
    weights.copy_from_slice(engine.read_weights());
    history.copy_from_slice(engine.read_history());
}
