//! The owner of the simple engine's state and buffers.

use crate::raw::rho::{self, RhoCanceller};
use crate::refusal::{accepted, Refusal};
use std::fmt;

/// The simple engine. It delivers a sample for each pair at once, and models echo of up to as many samples as it has taps.
///
/// It owns its state and its two buffers, so of refusals 1 to 6 `process` gives 3, 4 and 5, and `flush` and `reset` none. What it can
/// cancel stands at [`raw::rho`](crate::raw::rho).
#[derive(Clone)]
pub struct Rho {
    state: RhoCanceller,
    weights: Vec<f32>,
    history: Vec<f32>,
}

/// What a call of [`Rho`] delivered, and how the engine then stands.
#[derive(Clone, Copy, Debug, PartialEq, Eq)]
pub struct RhoReport {
    /// So many samples are new, at the first places of the output buffer: as many as there were pairs.
    pub delivered: usize,
    /// How often, since creation, the filter diverged and was cleared.
    pub divergence_resets: u64,
    /// Whether the weights are frozen, since near was loud while the loudspeaker played.
    pub double_talk: bool,
}

impl From<rho::Answer> for RhoReport {
    fn from(answer: rho::Answer) -> RhoReport {
        RhoReport {
            delivered: answer.delivered,
            divergence_resets: answer.report.divergence_resets,
            double_talk: answer.report.double_talk,
        }
    }
}

impl Rho {
    /// An engine that has heard nothing, for a rate of 8,000 to 48,000 samples a second and echo of up to 0 to 1,000 ms. It has
    /// floor(`tail_ms` * `sample_rate` / 1000) taps, at least 1. A setting outside its range, or one with more than 8,192 taps, is refused
    /// with [`Refusal::Setting`].
    pub fn new(sample_rate: u32, tail_ms: u32) -> Result<Rho, Refusal> {
        // With nothing lent the library answers 1 where it refuses the settings, else 2. So it judges the settings, before there is a
        // buffer of that size.
        let asked = rho::create(sample_rate, tail_ms, &mut [], &mut []);
        if asked.refusal == Refusal::Setting.number() {
            return Err(Refusal::Setting);
        }
        let taps = (sample_rate as usize * tail_ms as usize / 1000).max(1);
        let (mut weights, mut history) = (vec![0.0; taps], vec![0.0; taps]);
        let started = rho::create(sample_rate, tail_ms, &mut weights, &mut history);
        accepted(started.refusal)?;
        Ok(Rho {
            state: started.state,
            weights,
            history,
        })
    }

    /// An engine that goes on from a stored state and its weights and history, as [`state`](Rho::state) and [`buffers`](Rho::buffers) gave
    /// them. It is refused with [`Refusal::State`] where a number of the state is outside its range, and with [`Refusal::Buffer`]
    /// where a buffer has not one number for each tap. Any float is accepted, and other buffers of that length are taken for the
    /// state's own. Once it is accepted, it is as good as a new one: no later call is refused for its state or its buffers.
    pub fn from_parts(
        state: &RhoCanceller,
        [weights, history]: [Vec<f32>; 2],
    ) -> Result<Rho, Refusal> {
        // A flush tests what it is given, and changes nothing.
        accepted(rho::flush(*state, &weights, &history).refusal)?;
        Ok(Rho {
            state: *state,
            weights,
            history,
        })
    }

    /// Takes pairs, `near[i]` with `far[i]`, and delivers a sample for each of them, to the first places of `out`; the others stay as they
    /// were. A sample that is not a finite number is read as 0.0.
    ///
    /// It is refused with [`Refusal::Lengths`], [`Refusal::Pairs`] or [`Refusal::Room`].
    pub fn process(
        &mut self,
        near: &[f32],
        far: &[f32],
        out: &mut [f32],
    ) -> Result<RhoReport, Refusal> {
        let Rho {
            state,
            weights,
            history,
        } = self;
        let answer = rho::process(*state, weights, history, near, far, out);
        accepted(answer.refusal)?;
        *state = answer.state;
        Ok(answer.into())
    }

    /// Delivers nothing and changes nothing, since no pair ever waits: how the engine stands. It is not refused, as `reset` is not.
    #[must_use = "it only reports"]
    pub fn flush(&self) -> RhoReport {
        let answer = rho::flush(self.state, &self.weights, &self.history);
        debug_assert_eq!(answer.refusal, 0);
        answer.into()
    }

    /// Forgets all but the settings and the counter of resets.
    pub fn reset(&mut self) {
        // Refused would be a state out of its ranges, or a buffer of another length. The buffers keep theirs, and a state in range is so
        // after any calls: `pairs-ready` (crates/rho_streams proofs/Cut). `rho-calls` (crates/promises proofs/Demand3) has, of any calls
        // since a creation, that a reset is then accepted, and a flush.
        let started = rho::reset(self.state, &mut self.weights, &mut self.history);
        debug_assert_eq!(started.refusal, 0);
        self.state = started.state;
    }

    /// How many taps it has, which is how many samples old an echo may be.
    #[must_use]
    pub fn taps(&self) -> usize {
        self.state.taps
    }

    /// The whole state, to be looked at or stored.
    #[must_use]
    pub fn state(&self) -> &RhoCanceller {
        &self.state
    }

    /// The weights and the history, each of a number for each tap, to be looked at or stored.
    #[must_use]
    pub fn buffers(&self) -> [&[f32]; 2] {
        [&self.weights, &self.history]
    }
}

/// Without the buffers, which may have thousands of numbers.
impl fmt::Debug for Rho {
    fn fmt(&self, f: &mut fmt::Formatter<'_>) -> fmt::Result {
        f.debug_struct("Rho")
            .field("state", &self.state)
            .finish_non_exhaustive()
    }
}
