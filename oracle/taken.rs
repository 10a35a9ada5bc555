//! The branches that a block took. Patches of the Rust and the house detector write them (oracle/rust).

#![allow(dead_code)] // a driver uses a part

/// What the comparison of the two filters asks before it moves the output, in the order of the Rust's text.
#[derive(Clone, Copy, Debug, PartialEq)]
pub enum Test {
    Adapts,
    OutputHolds,
    FarIsActive,
    IsEstablished,
    IsQuietForLong,
    HasOutputPower,
    HasAdvantage,
}

/// A block's inverse transforms: the shadow's in step 2, the output's in step 3, those of the update, and the suppressor's.
#[derive(Clone, Copy, Debug, PartialEq)]
pub enum Inverse {
    Shadow,
    Output,
    Gradient,
    Suppressed,
}

pub const INVERSES: [Inverse; 4] = [
    Inverse::Shadow,
    Inverse::Output,
    Inverse::Gradient,
    Inverse::Suppressed,
];

#[derive(Clone, Copy, Debug, Default)]
pub struct Taken {
    /// The shadow in step 2 and in the update, and the output.
    pub shadow_diverged: bool,
    pub update_diverged: bool,
    pub diverged: bool,
    /// By step 4, of this block.
    pub far_is_active: bool,
    /// Near has no energy.
    pub is_muted: bool,
    /// The detector's c, where it took one.
    pub likeness: Option<f64>,
    /// The two-path comparison, and what came of it.
    pub compared: bool,
    pub rescued: bool,
    pub leak: Option<f64>,
    /// The test that stopped it.
    pub failed: Option<Test>,
    /// A bin's step factor at 0.02, and the largest of all bins.
    pub least_step: bool,
    pub most_step: f64,
    /// Whether a kept power was false before the block, and is after it.
    pub had_false_powers: bool,
    pub has_false_powers: bool,
    pub suppressed: bool,
    /// A bin's gain going up, one not, and a bin's target at 0.1.
    pub rising: bool,
    pub falling: bool,
    pub least_gain: bool,
    pub guarded: bool,
    /// How many samples went over, by the inverse and by the half of its samples that they are in.
    pub overs: [[u32; 2]; INVERSES.len()],
}

impl Taken {
    /// Whether a test of the Rust passes, as it came out there.
    pub fn passes(&mut self, test: Test, passes: bool) -> bool {
        if !passes {
            self.failed = Some(test);
        }
        passes
    }

    /// As an inverse of the Rust counted them.
    pub fn went_over(&mut self, inverse: Inverse, halves: [u32; 2]) {
        let counts = self.overs[inverse as usize].iter_mut().zip(halves);
        counts.for_each(|(count, more)| *count += more);
    }

    /// In one inverse, or in all those of the update.
    pub fn overs_in(&self, inverse: Inverse) -> u32 {
        self.overs[inverse as usize].iter().sum()
    }

    /// Of those, the ones that the block makes no use of.
    pub fn dropped_in(&self, inverse: Inverse) -> u32 {
        let half = usize::from(inverse == Inverse::Gradient);
        self.overs[inverse as usize][half]
    }

    /// Those inverses in which some went over.
    pub fn over_in(&self) -> Vec<Inverse> {
        let is_over = |inverse: &Inverse| self.overs_in(*inverse) > 0;
        INVERSES.into_iter().filter(is_over).collect()
    }

    pub fn all_overs(&self) -> u32 {
        INVERSES.iter().map(|inverse| self.overs_in(*inverse)).sum()
    }

    pub fn gained(&mut self, is_rising: bool, is_least: bool) {
        self.rising |= is_rising;
        self.falling |= !is_rising;
        self.least_gain |= is_least;
    }
}
