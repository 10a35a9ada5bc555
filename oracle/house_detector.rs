//! Document 01's house detector, mended by request K5, in place of the Rust's own (oracle/rust). It is on every block, and its numbers are
//! the engine's.

use crate::rust_tau::TauCanceller;

/// So many blocks with far sound establish it.
const ESTABLISHED: u32 = 64;

impl TauCanceller {
    /// The stored verdict: whether the block's likeness to the shadow's estimate collapsed, this block's if far sounds and near does, and
    /// otherwise the one before.
    pub(crate) fn double_talk_block(
        &mut self,
        near: &[f32],
        near_energy: f64,
        estimate: &[f32],
        estimate_energy: f64,
        far_is_active: bool,
    ) -> bool {
        self.taken.far_is_active = far_is_active;
        // request K5: a muted microphone is no evidence
        self.taken.is_muted = near_energy == 0.0;
        if far_is_active && !self.taken.is_muted {
            let c = likeness(near, near_energy, estimate, estimate_energy);
            self.taken.likeness = Some(c);
            self.judge(c);
        }
        // a field of the Rust's, which the comparison after this reads; the port has the count alone
        self.dtd_established = self.dtd_blocks == ESTABLISHED;
        self.dtd_collapsed
    }

    fn judge(&mut self, c: f64) {
        self.dtd_blocks = (self.dtd_blocks + 1).min(ESTABLISHED);
        let is_established = self.dtd_blocks == ESTABLISHED;
        self.coherence_smooth = 0.8 * self.coherence_smooth + (1.0 - 0.8) * c;
        let (baseline, deviation) = (self.dtd_baseline, self.dtd_deviation);
        self.dtd_collapsed = is_established && c < baseline - 3.0 * deviation.max(0.01);
        self.dtd_deviation = 0.99 * deviation + (1.0 - 0.99) * (c - baseline).abs();
        let kept = if c > baseline { 0.5 } else { 0.99 };
        self.dtd_baseline = kept * baseline + (1.0 - kept) * c;
        self.step_scale = 1.0;
        self.protect_output = false;
        if is_established {
            self.step_scale = (self.coherence_smooth / 0.5).clamp(0.01, 1.0);
            self.protect_output = self.coherence_smooth < 0.2;
        }
    }
}

/// From 0 to 1. The order: an energy of 0 first, then a ratio that is not below 1, as no number is.
fn likeness(near: &[f32], near_energy: f64, estimate: &[f32], estimate_energy: f64) -> f64 {
    if near_energy == 0.0 || estimate_energy == 0.0 {
        return 0.0;
    }
    let pairs = near.iter().zip(estimate);
    let cross = pairs.fold(0.0, |sum, (&n, &e)| sum + f64::from(n) * f64::from(e));
    let ratio = cross * cross / (near_energy * estimate_energy);
    if ratio < 1.0 {
        ratio
    } else {
        1.0
    }
}
