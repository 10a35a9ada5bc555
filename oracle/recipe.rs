//! How a line says what samples are made, as `cases::Recipe` makes them.

#![allow(dead_code)] // a driver uses a part

use crate::inputs::{halves, Random};
use crate::kinds::{samples, Kind};

/// Noise, with one number of its own at a place, if there is such a place.
#[derive(Clone, Copy)]
pub struct Recipe {
    pub seed: u64,
    pub kind: Kind,
    pub place: u32,
    pub mark: u32,
}

impl Recipe {
    pub fn noise(seed: u64, kind: Kind) -> Recipe {
        Recipe {
            seed,
            kind,
            place: u32::MAX,
            mark: 0,
        }
    }

    /// One number all over.
    pub fn of(x: f32) -> Recipe {
        Recipe::noise(0, [x.to_bits().into(), 0])
    }

    pub fn marked(self, place: usize, x: f32) -> Recipe {
        Recipe {
            place: place as u32,
            mark: x.to_bits(),
            ..self
        }
    }

    pub fn fields(self) -> [u64; 3] {
        let [base, mask] = self.kind;
        [
            self.seed,
            base << 32 | mask,
            u64::from(self.place) << 32 | u64::from(self.mark),
        ]
    }

    pub fn samples(self, count: usize) -> Vec<f32> {
        let mut samples = samples(self.seed, self.kind, count);
        if let Some(x) = samples.get_mut(self.place as usize) {
            *x = f32::from_bits(self.mark);
        }
        samples
    }
}

/// Near and far, noise each, and the echo's gain, which near has of far besides. No gain where it is +0.0.
#[derive(Clone, Copy)]
pub struct Sounds {
    pub near: Recipe,
    pub far: Recipe,
    pub gain: f32,
}

impl Sounds {
    pub fn noise(random: &mut Random, near: Kind, far: Kind, gain: f32) -> Sounds {
        Sounds {
            near: Recipe::noise(random.word(), near),
            far: Recipe::noise(random.word(), far),
            gain,
        }
    }

    /// With other seeds.
    pub fn seeded(self, seed: impl Fn(Recipe) -> u64) -> Sounds {
        let next = |recipe| Recipe {
            seed: seed(recipe),
            ..recipe
        };
        Sounds {
            near: next(self.near),
            far: next(self.far),
            gain: self.gain,
        }
    }

    pub fn fields(self, lengths: [usize; 2]) -> [u64; 8] {
        let ([a, b, c], [d, e, f]) = (self.near.fields(), self.far.fields());
        let gain = self.gain.to_bits().into();
        [a, b, c, d, e, f, halves(lengths), gain]
    }

    /// Of near and of far.
    pub fn samples(self, count: usize) -> [Vec<f32>; 2] {
        let mut near = self.near.samples(count);
        let far = self.far.samples(count);
        if self.gain.to_bits() != 0 {
            for (n, f) in near.iter_mut().zip(&far) {
                *n += self.gain * f;
            }
        }
        [near, far]
    }
}

/// Near from this word, and far from one that lies apart from it on the ring.
pub fn sounds_of(word: u64, near: Kind, far: Kind, gain: f32) -> Sounds {
    Sounds {
        near: Recipe::noise(word, near),
        far: Recipe::noise(word ^ 0x5555_5555, far),
        gain,
    }
}
