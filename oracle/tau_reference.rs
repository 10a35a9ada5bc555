//! The Rust's Tau, completed by document 01 (oracle/rust) and called as the port's is: a state goes in and comes back, the buffers are
//! lent, and document 01's refusals, of which the Rust has none, come first. So an engine is made for each block, and what is not in the
//! state, as its scratch, does not come from the block before. `Continued` is the Rust as it is: one engine from call to call, with its
//! own carry and its own cuts, for which the calls here must come to the same.
//!
//! The Rust keeps no powers (request K10). Where each of those that are lent is the one worked out from its bin, the Rust's own rule runs,
//! which squares the stored spectra, and the powers after it are worked out from the spectra that it left. Where one is false, the rule
//! runs that sums what is kept (oracle/rust).

#![allow(dead_code)] // a driver uses a part

use crate::aspeyruni::tau::*;
use crate::canceller::EchoCanceller;
use crate::config::Suppression;
use crate::fft::Complex;
use crate::inputs::{bits, hash};
use crate::rust_tau::TauCanceller as Engine;
use crate::taken::Taken;
use crate::tau_calls::{Blocked, Reason, Told};
use crate::tau_lines::{fields, work_out};

pub const MOST_PARTITIONS: usize = 32;
pub const MOST_PAIRS: usize = 4096;

/// One block, for whoever counts branches: the state before it, what it came to, the branches that it took, far, and whether it is the
/// block of a flush.
pub struct Seen<'a> {
    pub before: &'a TauCanceller,
    pub blocked: &'a Blocked,
    pub taken: Taken,
    pub far: &'a [f32; BLOCK],
    pub flushes: bool,
}

pub type Watch<'a> = &'a mut dyn FnMut(Seen);

/// Refusals 1, 2.
pub fn create(partitions: usize, suppress: bool, lent: Lent) -> Started {
    let refused = |refusal| Started {
        refusal,
        state: TauCanceller::zero(),
    };
    if !(1..=MOST_PARTITIONS).contains(&partitions) {
        return refused(1);
    }
    if !are_sized(partitions, &lent) {
        return refused(2);
    }
    let engine = engine(partitions, suppress);
    keep_all(&engine, lent);
    Started {
        refusal: 0,
        state: read_state(&engine, [[0.0; BLOCK]; 2], 0),
    }
}

/// Refusals 6, 2, 3, 4, 5. A sample that is not finite is 0.0 from here on; one that a state has in its carry stays as it is.
pub fn process(
    state: &TauCanceller,
    mut lent: Lent,
    near: &[f32],
    far: &[f32],
    out: &mut [f32],
    watch: Watch,
) -> Answer {
    let refusal = match state_refusal(state, &lent) {
        0 => pairs_refusal(state, near, far, out),
        refusal => refusal,
    };
    if refusal != 0 {
        return answered(refusal, 0, state, Told::NOTHING);
    }
    let mut state = *state;
    let mut last = Told::NOTHING;
    let mut delivered = 0;
    for (x, y) in near.iter().zip(far) {
        state.near_carry[state.carried] = finite_or_zero(*x);
        state.far_carry[state.carried] = finite_or_zero(*y);
        state.carried += 1;
        if state.carried == BLOCK {
            state.carried = 0;
            let (near, far) = (state.near_carry, state.far_carry);
            let blocked = watched(&state, [&near, &far], BLOCK, false, &mut lent, watch);
            out[delivered..][..BLOCK].copy_from_slice(&blocked.block);
            delivered += BLOCK;
            (state, last) = (blocked.state, blocked.told);
        }
    }
    answered(0, delivered, &state, last)
}

/// Refusals 6, 2, 5. What the state keeps in its carry stays there: the padded block is a copy.
pub fn flush(state: &TauCanceller, mut lent: Lent, out: &mut [f32], watch: Watch) -> Answer {
    let carried = state.carried;
    let refusal = match state_refusal(state, &lent) {
        0 if out.len() < carried => 5,
        refusal => refusal,
    };
    if refusal != 0 || carried == 0 {
        return answered(refusal, 0, state, Told::NOTHING);
    }
    let mut state = *state;
    state.carried = 0;
    let (mut near, mut far) = (state.near_carry, state.far_carry);
    near[carried..].fill(0.0);
    far[carried..].fill(0.0);
    let blocked = watched(&state, [&near, &far], carried, true, &mut lent, watch);
    out[..carried].copy_from_slice(&blocked.block[..carried]);
    answered(0, carried, &blocked.state, blocked.told)
}

/// Refusals 6, 2. The carry is empty and all of it 0.0, as creation leaves it.
pub fn reset(state: &TauCanceller, lent: Lent) -> Started {
    let refusal = state_refusal(state, &lent);
    if refusal != 0 {
        return Started {
            refusal,
            state: *state,
        };
    }
    let mut engine = set(state);
    load(&mut engine, &lent);
    reset_all(&mut engine);
    keep_all(&engine, lent);
    Started {
        refusal: 0,
        state: read_state(&engine, [[0.0; BLOCK]; 2], 0),
    }
}

/// How long the lent buffers have to be.
pub fn sizes(partitions: usize) -> [usize; 4] {
    let numbers = NUMBERS * partitions;
    [numbers, numbers, numbers, BINS * partitions]
}

fn are_sized(partitions: usize, lent: &Lent) -> bool {
    lent.each_ref().map(|buffer| buffer.len()) == sizes(partitions)
}

/// 6, then 2.
fn state_refusal(state: &TauCanceller, lent: &Lent) -> u32 {
    let in_range = (1..=MOST_PARTITIONS).contains(&state.partitions)
        && state.far.head < state.partitions
        && state.carried < BLOCK
        && state.mic.paths.rescue_streak <= 7
        && state.mic.detector.dtd_blocks <= 64;
    if !in_range {
        return 6;
    }
    if !are_sized(state.partitions, lent) {
        return 2;
    }
    0
}

/// 3, then 4, then 5.
fn pairs_refusal(state: &TauCanceller, near: &[f32], far: &[f32], out: &[f32]) -> u32 {
    if near.len() != far.len() {
        return 3;
    }
    if near.len() > MOST_PAIRS {
        return 4;
    }
    if out.len() < (state.carried + near.len()) / BLOCK * BLOCK {
        return 5;
    }
    0
}

fn finite_or_zero(x: f32) -> f32 {
    if x.is_finite() {
        x
    } else {
        0.0
    }
}

fn watched(
    state: &TauCanceller,
    [near, far]: [&[f32; BLOCK]; 2],
    valid: usize,
    flushes: bool,
    lent: &mut Lent,
    watch: &mut dyn FnMut(Seen),
) -> Blocked {
    let lent = lent.each_mut().map(|buffer| &mut **buffer);
    let (blocked, taken) = run_block(state, near, far, valid, !flushes, lent);
    watch(Seen {
        before: state,
        blocked: &blocked,
        taken,
        far,
        flushes,
    });
    blocked
}

/// The report is of the last block, and but for its reason, with the outcome, and for what went over it is what the state says.
fn answered(refusal: u32, delivered: usize, state: &TauCanceller, last: Told) -> Answer {
    let outcome = last.reason.outcome();
    Answer {
        refusal,
        delivered,
        state: *state,
        transfers: state.mic.transfers,
        divergence_resets: state.mic.divergence_resets,
        double_talk: state.mic.detector.double_talk,
        outcome: outcome.number(),
        reason: last.reason.number(),
        overs: last.overs,
        leak: outcome.leak(),
    }
}

/// The Rust's engine, kept from call to call.
pub struct Continued(Engine);

impl Continued {
    pub fn created(partitions: usize, suppress: bool) -> Continued {
        Continued(engine(partitions, suppress))
    }

    /// From a state that some other engine left, or none.
    pub fn from(state: &TauCanceller, lent: Lent) -> Continued {
        let mut engine = set(state);
        engine.near_carry = state.near_carry[..state.carried].to_vec();
        engine.far_carry = state.far_carry[..state.carried].to_vec();
        load(&mut engine, &lent);
        Continued(engine)
    }

    /// The samples delivered.
    pub fn process(&mut self, near: &[f32], far: &[f32]) -> Vec<f32> {
        let mut samples = Vec::new();
        self.0.taken = Taken::default();
        let Ok(()) = self.0.process(near, far, &mut samples);
        samples
    }

    pub fn flush(&mut self) -> Vec<f32> {
        let mut samples = Vec::new();
        self.0.taken = Taken::default();
        let Ok(()) = self.0.flush(&mut samples);
        samples
    }

    pub fn reset(&mut self) {
        reset_all(&mut self.0);
    }

    /// What it reports: the transfers, the resets, and whether there is double talk.
    pub fn report(&self) -> (u64, u64, bool) {
        let metrics = self.0.metrics();
        (
            self.0.transfers,
            metrics.divergence_resets,
            metrics.double_talk,
        )
    }

    /// Of the last block that the last call ran.
    pub fn reason(&self) -> Reason {
        Reason::of(&self.0.taken)
    }

    /// The same, with what went over.
    pub fn told(&self) -> Told {
        Told::of(&self.0.taken)
    }

    /// Whether an answer reports the same, with the reason and what went over.
    pub fn reports(&self, a: &Answer) -> bool {
        let Told { reason, overs } = self.told();
        (a.transfers, a.divergence_resets, a.double_talk) == self.report()
            && (a.reason, a.leak) == (reason.number(), reason.outcome().leak())
            && a.overs == overs
    }

    /// The state. Of the carry it keeps what waits alone: the rest is as in the state that it is held against.
    pub fn state(&self, beside: &TauCanceller) -> TauCanceller {
        let waits = self.0.near_carry.len();
        let (mut near, mut far) = (beside.near_carry, beside.far_carry);
        near[..waits].copy_from_slice(&self.0.near_carry);
        far[..waits].copy_from_slice(&self.0.far_carry);
        read_state(&self.0, [near, far], waits)
    }

    /// Whether it stands where this state and these buffers do.
    pub fn is_at(&self, state: &TauCanceller, buffers: [&[f64]; 4]) -> bool {
        let mut own = sizes(self.0.partitions).map(|n| vec![0.0; n]);
        keep_all(&self.0, own.each_mut().map(|buffer| &mut buffer[..]));
        let own = own.each_ref().map(|buffer| &buffer[..]);
        fields(&self.state(state), own) == fields(state, buffers)
            && hash(own[3]) == hash(buffers[3])
    }
}

/// The state that creation gives.
pub fn fresh(partitions: usize, suppress: bool) -> TauCanceller {
    read_state(&engine(partitions, suppress), [[0.0; BLOCK]; 2], 0)
}

/// A block, and the branches that it took.
pub fn run_block(
    state: &TauCanceller,
    near: &[f32; BLOCK],
    far: &[f32; BLOCK],
    valid: usize,
    adapt: bool,
    mut lent: Lent,
) -> (Blocked, Taken) {
    let mut engine = set(state);
    load(&mut engine, &lent);
    engine.run_block(near, far, valid, adapt);
    keep_all(&engine, lent.each_mut().map(|buffer| &mut **buffer));
    let [_, _, spectra, powers] = lent;
    engine.taken.had_false_powers = engine.powers.is_some();
    engine.taken.has_false_powers = !are_true(spectra, powers);
    let blocked = Blocked {
        state: read_state(&engine, [state.near_carry, state.far_carry], state.carried),
        block: array(&engine.output_block),
        told: Told::of(&engine.taken),
    };
    (blocked, engine.taken)
}

/// The Rust has its partitions from a tail in milliseconds. At this rate one of them has a partition's samples.
fn engine(partitions: usize, suppress: bool) -> Engine {
    let suppression = if suppress {
        Suppression::Conservative
    } else {
        Suppression::Off
    };
    Engine::new(1000 * BLOCK as u32, partitions as u16, suppression)
}

fn set(s: &TauCanceller) -> Engine {
    let (far, mic) = (&s.far, &s.mic);
    let (d, p, q) = (&mic.detector, &mic.paths, &mic.suppressor);
    let mut e = engine(s.partitions, s.suppress);
    e.far_window = far.window.to_vec();
    e.head = far.head;
    e.far_active = far.far_active;
    e.far_energy_peak = far.far_energy_peak;
    e.double_talk = d.double_talk;
    e.dtd_collapsed = d.dtd_collapsed;
    e.protect_output = d.protect_output;
    e.dtd_blocks = d.dtd_blocks;
    e.dtd_baseline = d.dtd_baseline;
    e.dtd_deviation = d.dtd_deviation;
    e.coherence_smooth = d.coherence_smooth;
    e.step_scale = d.step_scale;
    e.shadow_error_power = p.shadow_error_power;
    e.output_error_power = p.output_error_power;
    e.quiet_streak = p.quiet_streak;
    e.rescue_streak = p.rescue_streak;
    e.far_power_mean = mic.far_power_mean.to_vec();
    e.echo_power = q.echo_power.to_vec();
    e.error_power = q.error_power.to_vec();
    e.gain = q.gain.to_vec();
    e.error_window = q.error_window.to_vec();
    e.divergence_near_power = mic.guard.divergence_near_power;
    e.divergence_out_power = mic.guard.divergence_out_power;
    e.near_power = mic.powers.near_power;
    e.residual_power = mic.powers.residual_power;
    e.transfers = mic.transfers;
    e.divergence_resets = mic.divergence_resets;
    e
}

/// With the carry, which a block leaves alone and the Rust keeps in another form.
fn read_state(
    e: &Engine,
    [near_carry, far_carry]: [[f32; BLOCK]; 2],
    carried: usize,
) -> TauCanceller {
    TauCanceller {
        partitions: e.partitions,
        suppress: e.suppression == Suppression::Conservative,
        carried,
        near_carry,
        far_carry,
        far: Far {
            window: array(&e.far_window),
            head: e.head,
            far_active: e.far_active,
            far_energy_peak: e.far_energy_peak,
        },
        mic: Mic {
            detector: Detector {
                double_talk: e.double_talk,
                dtd_collapsed: e.dtd_collapsed,
                protect_output: e.protect_output,
                dtd_blocks: e.dtd_blocks,
                dtd_baseline: e.dtd_baseline,
                dtd_deviation: e.dtd_deviation,
                coherence_smooth: e.coherence_smooth,
                step_scale: e.step_scale,
            },
            paths: Paths {
                shadow_error_power: e.shadow_error_power,
                output_error_power: e.output_error_power,
                quiet_streak: e.quiet_streak,
                rescue_streak: e.rescue_streak,
            },
            far_power_mean: array(&e.far_power_mean),
            suppressor: Suppressor {
                echo_power: array(&e.echo_power),
                error_power: array(&e.error_power),
                gain: array(&e.gain),
                error_window: array(&e.error_window),
            },
            guard: Guard {
                divergence_near_power: e.divergence_near_power,
                divergence_out_power: e.divergence_out_power,
            },
            powers: Powers {
                near_power: e.near_power,
                residual_power: e.residual_power,
            },
            transfers: e.transfers,
            divergence_resets: e.divergence_resets,
        },
    }
}

fn array<T: Copy, const N: usize>(numbers: &[T]) -> [T; N] {
    numbers.try_into().ok().unwrap()
}

fn complex(numbers: &[f64]) -> Vec<Complex> {
    let parts = numbers.chunks_exact(2);
    parts.map(|part| Complex::new(part[0], part[1])).collect()
}

fn load(engine: &mut Engine, [shadow, output, spectra, powers]: &Lent) {
    engine.shadow_weights = complex(shadow);
    engine.output_weights = complex(output);
    engine.far_spectra = complex(spectra);
    engine.powers = (!are_true(spectra, powers)).then(|| powers.to_vec());
}

fn keep_all(engine: &Engine, [shadow, output, spectra, powers]: Lent) {
    keep(&engine.shadow_weights, shadow);
    keep(&engine.output_weights, output);
    keep(&engine.far_spectra, spectra);
    match &engine.powers {
        Some(kept) => powers.copy_from_slice(kept),
        None => work_out(spectra, powers),
    }
}

fn keep(from: &[Complex], to: &mut [f64]) {
    for (part, x) in to.chunks_exact_mut(2).zip(from) {
        part.copy_from_slice(&[x.re, x.im]);
    }
}

/// Whether each power is the one worked out from its bin.
pub fn are_true(spectra: &[f64], powers: &[f64]) -> bool {
    let mut worked_out = vec![0.0; powers.len()];
    work_out(spectra, &mut worked_out);
    let mut pairs = worked_out.iter().zip(powers);
    pairs.all(|(x, y)| bits(*x) == bits(*y))
}

/// The spectra are zeros then, and the powers are what zeros square to.
fn reset_all(engine: &mut Engine) {
    engine.reset();
    engine.powers = None;
}

/// What oracle/rust has the Rust's block call where it stores a spectrum and where it squares one.
impl Engine {
    pub(crate) fn keep_powers(&mut self) {
        let head = BINS * self.head;
        if let Some(powers) = &mut self.powers {
            for (power, x) in powers[head..].iter_mut().zip(&self.spectrum_scratch) {
                *power = x.re * x.re + x.im * x.im;
            }
        }
    }

    /// The kept one, or where none is kept the square.
    pub(crate) fn power(&self, place: usize, square: f64) -> f64 {
        let kept = self.powers.as_ref();
        kept.map_or(square, |powers| powers[place])
    }
}
