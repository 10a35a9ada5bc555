//! Blocks at which one reading of the rules parts from another that is as likely, each the smallest that shows it. They stand behind the
//! others, so that the lines before them keep their seeds.

use crate::aspeyruni::tau::*;
use crate::inputs::{word_of, DIGITS, SIGN};
use crate::kinds::*;
use crate::recipe::{sounds_of, Recipe, Sounds};
use crate::tau_lines::*;
use crate::tau_reference::{self, sizes};
use crate::{amid_rescue, block, target_is_gain, List};

/// Where any word will do.
pub const SOME: u64 = 77;

pub fn all(list: &mut List) {
    edges_again(list);
    borders(list);
    last_digits(list);
    last_digits_of_c(list);
    conditions(list);
    guard_conditions(list);
    zeros(list);
    no_number(list);
    overflows(list);
    divergences(list);
    far_silent(list);
    muted(list);
}

impl List {
    /// An engine as after an echo that was learnt, but for a change.
    pub fn learnt(&mut self, partitions: usize, change: impl Fn(&mut TauCanceller)) {
        let mut state = established(partitions);
        change(&mut state);
        self.new_with(state);
    }

    /// One block from one word.
    pub fn block_of(&mut self, word: u64, near: Kind, far: Kind, gain: f32) {
        self.run('b', sounds_of(word, near, far, gain), BLOCK, 1);
    }
}

/// The edges once more, with other numbers at the same bounds.
fn edges_again(list: &mut List) {
    // 1.05 times a near power that is no power of 2
    let near = (3..)
        .map(f64::from)
        .find(|x| 0.98 * (1.05 * x) == 1.05 * (0.98 * x));
    let near = near.unwrap();
    let states: [(Kind, &dyn Fn(&mut TauCanceller)); 5] = [
        (SILENCE, &|s| {
            s.mic.paths.shadow_error_power = 4.0;
            s.mic.paths.output_error_power = 1.0;
        }),
        (SILENCE, &|s| s.mic.paths.output_error_power = -3.0),
        // the margin of a deviation above its floor
        (LEAST, &|s| {
            s.mic.detector.dtd_baseline = 0.75;
            s.mic.detector.dtd_deviation = 0.25;
        }),
        // at 0.2 it is quiet, and the output moves
        (LEAST, &|s| {
            s.mic.detector.dtd_baseline = 0.0;
            s.mic.detector.coherence_smooth = 0.25;
        }),
        (SILENCE, &|s| {
            s.mic.guard.divergence_near_power = near;
            s.mic.guard.divergence_out_power = 1.05 * near;
        }),
    ];
    for (near, change) in states {
        list.learnt(2, change);
        list.each(near, SOUND, 0.0, 1);
    }
    // at 0.2 with a c of 1, which one sample has
    list.learnt(1, |s| {
        s.mic.detector.coherence_smooth = (0.2 - (1.0 - 0.8)) / 0.8;
    });
    list.make(SHADOW, SOUND64);
    list.flush(LOW, FULL, 0.5, 1);
    target_is_gain(list, 2, QUARTER);
    amid_rescue(list, 2, 3, 200);
}

/// Just above the number of a test and just below it, with powers on both sides that are not 0. But for far energy near is silent and the
/// weights are 0, so that a block brings no energy; for the detector, which learns from no silence, it brings next to none.
fn borders(list: &mut List) {
    let sounds = sounds_of(word_of(2), LOW, SOUND, 0.0);
    for by in [1.0 - 1e-10, 1.0 + 1e-10] {
        list.learnt(1, |s| s.far.far_energy_peak = energy(sounds) / 1e-4 * by);
        list.run('b', sounds, BLOCK, 1);
    }
    let states: [(Kind, fn(&mut TauCanceller, f64)); 6] = [
        // the deviation's floor 0.01, and with a deviation above it the margin 3 alone
        (LEAST, |s, by| {
            s.mic.detector.dtd_baseline = 0.03 * (1.0 + by);
            s.mic.detector.dtd_deviation = 0.0;
        }),
        (LEAST, |s, by| {
            s.mic.detector.dtd_baseline = 0.75 * (1.0 + by);
            s.mic.detector.dtd_deviation = 0.25;
        }),
        // the advantage 0.1, which is what 0.9 leaves of 1
        (SILENCE, |s, by| {
            s.mic.paths.shadow_error_power = 0.9 * (1.0 - by / 10.0);
            s.mic.paths.output_error_power = 1.0;
        }),
        // the rescue's 4, the guard's 1.05, and 0.2, of which smooth keeps 0.8
        (SILENCE, |s, by| {
            s.mic.paths.shadow_error_power = 4.0 * (1.0 + by);
            s.mic.paths.output_error_power = 1.0;
        }),
        (SILENCE, |s, by| {
            s.mic.guard.divergence_near_power = 1.0;
            s.mic.guard.divergence_out_power = 1.05 * (1.0 + by);
        }),
        (LEAST, |s, by| {
            s.mic.detector.coherence_smooth = 0.25 * (1.0 + by)
        }),
    ];
    for (near, change) in states {
        for by in [1e-10, -1e-10] {
            list.learnt(1, |s| change(s, by));
            list.block_of(SOME, near, SOUND, 0.0);
        }
    }
}

/// Of far in one block.
fn energy(sounds: Sounds) -> f64 {
    let far = sounds.far.samples(BLOCK).into_iter().map(f64::from);
    far.fold(0.0, |sum, x| sum + x * x)
}

/// Where a test comes out otherwise if it is written another way: the numbers are found by trying.
fn last_digits(list: &mut List) {
    // a product of the peak, not a quotient by it
    let (sounds, peak) = (1..)
        .map(|k| sounds_of(word_of(k), LOW, SOUND, 0.0))
        .flat_map(|sounds| about(energy(sounds) / 1e-4).map(|peak| (sounds, peak)))
        .find(|&(sounds, peak)| {
            let energy = energy(sounds);
            (energy > 1e-4 * peak) != (energy / peak > 1e-4)
        })
        .unwrap();
    list.learnt(1, |s| s.far.far_energy_peak = peak);
    list.run('b', sounds, BLOCK, 1);
    // the same of the guard's powers
    let (near, out) = (1..)
        .map(|k| 1.0 + f64::from(k) / 1000.0)
        .map(|near| (near, 1.05 * near))
        .find(|&(near, out)| {
            let (near, out) = (0.98 * near, 0.98 * out);
            (out > 1.05 * near) != (out / near > 1.05)
        })
        .unwrap();
    list.learnt(1, |s| {
        s.mic.guard.divergence_near_power = near;
        s.mic.guard.divergence_out_power = out;
    });
    list.block_of(SOME, SILENCE, SOUND, 0.0);
    // 1 - 0.9 is below 0.1, so nothing moves, though the shadow's power is not above 0.9 of the output's
    list.learnt(1, |s| {
        s.mic.paths.shadow_error_power = 0.9;
        s.mic.paths.output_error_power = 1.0;
    });
    list.block_of(SOME, SILENCE, SOUND, 0.0);
}

/// The same of the detector's c: against the margin, which is taken off the baseline and not c; and at the baseline, which c is not above,
/// so that 0.99 of it is kept.
fn last_digits_of_c(list: &mut List) {
    let words = |k| (word_of(k), word_of(k + 3));
    let (k, baseline) = (1..)
        .map(|k| (k, likeness(words(k))))
        .flat_map(|(k, c)| about(c + 0.03).map(|baseline| (k, c, baseline)))
        .find(|&(_, c, baseline)| (c < baseline - 0.03) != (baseline - c > 0.03))
        .map(|(k, _, baseline)| (k, baseline))
        .unwrap();
    judged(list, words(k), baseline);
    let (k, c) = (1..)
        .map(|k| (k, likeness(words(k))))
        .find(|&(_, c)| 0.99 * c + (1.0 - 0.99) * c != c)
        .unwrap();
    judged(list, words(k), c);
}

/// A number and the two to either side of it.
fn about(x: f64) -> [f64; 3] {
    [x, x.next_down(), x.next_up()]
}

/// A block by the words of a shadow and of the sounds.
fn judged(list: &mut List, (shadow, sounds): (u64, u64), baseline: f64) {
    list.learnt(1, |s| s.mic.detector.dtd_baseline = baseline);
    list.make_by(SHADOW, Recipe64::noise(shadow, SOUND64));
    list.block_of(sounds, LOW, SOUND, 0.5);
}

/// The c of such a block.
fn likeness((shadow, sounds): (u64, u64)) -> f64 {
    let mut state = established(1);
    let mut buffers = sizes(1).map(|n| vec![0.0; n]);
    let recipe = Recipe64::noise(shadow, SOUND64);
    recipe.make(SHADOW, &mut state, lend(&mut buffers, sizes(1)));
    let [near, far] = block(sounds_of(sounds, LOW, SOUND, 0.5), BLOCK);
    let lent = lend(&mut buffers, sizes(1));
    let (_, taken) = tau_reference::run_block(&state, &near, &far, BLOCK, true, lent);
    taken.likeness.unwrap()
}

/// What a condition asks, and what it does not. A collapse asks the baseline before this block: by the one after it there is none. A move
/// asks an output power above 0.
fn conditions(list: &mut List) {
    let states: [(Kind, fn(&mut TauCanceller)); 2] = [
        (LEAST, |s| {
            s.mic.detector.dtd_baseline = 0.0302;
            s.mic.detector.dtd_deviation = 0.0;
        }),
        (SILENCE, |s| {
            s.mic.paths.shadow_error_power = -1.0;
            s.mic.paths.output_error_power = 0.0;
        }),
    ];
    for (near, change) in states {
        list.learnt(1, change);
        list.block_of(SOME, near, SOUND, 0.0);
    }
}

/// The guard asks the smoothed near power and not this block's near energy, and that it is above 0. It does not ask for far sound, in this
/// block or ever, nor whether there was a rescue.
fn guard_conditions(list: &mut List) {
    list.learnt(1, |s| s.mic.guard.divergence_out_power = 1e9);
    list.block_of(SOME, SILENCE, SOUND, 0.0);
    list.learnt(1, |s| s.mic.guard.divergence_near_power = 0.0);
    list.block_of(SOME, SILENCE, SOUND, 0.0);
    for far_active in [true, false] {
        list.learnt(1, |s| {
            s.far.far_active = far_active;
            s.mic.guard.divergence_out_power = 1e9;
        });
        list.block_of(SOME, LOW, SILENCE, 0.0);
    }
    list.learnt(1, |s| {
        s.mic.paths = Paths {
            shadow_error_power: 1e9,
            output_error_power: 1.0,
            quiet_streak: 5,
            rescue_streak: 7,
        };
        s.mic.guard.divergence_out_power = 1e9;
    });
    list.block_of(SOME, LOW, SOUND, 0.5);
}

/// Sums start at +0.0: so the estimate of weights that are 0 is +0.0, and near at -0.0 stays so.
fn zeros(list: &mut List) {
    list.create(1, true);
    let sounds = Sounds {
        near: Recipe::of(-0.0),
        far: Recipe::noise(word_of(9), FULL),
        gain: 0.0,
    };
    list.run('b', sounds, BLOCK, 1);
}

/// A far sample that is no number, which a foreign carry may have, is a sound.
fn no_number(list: &mut List) {
    list.create(1, true);
    let sounds = Sounds {
        near: Recipe::noise(1, LOW),
        far: Recipe::of(f32::NAN),
        gain: 0.0,
    };
    list.run('f', sounds, 1, 1);
}

/// Estimates that no f32 holds, by the shadow and by the output: in places that a flush pads, which count, and in the half of the inverse
/// that is dropped, which does not. And a move that no f64 holds, which nothing judges.
fn overflows(list: &mut List) {
    let huge = 2f64.powi(138);
    for array in [SHADOW, OUTPUT] {
        // one weight, the imaginary part of bin 1: of one far sample it gives a sine, from 0 on
        list.learnt(1, |_| ());
        list.make_by(array, Recipe64::alone(3, huge.to_bits()));
        let mut sounds = sounds_of(SOME, LOW, FULL, 0.0);
        list.run('f', sounds, 1, 1);
        // equal weights: of one far sample they give one huge sample at its place, in the block before, and about it less and less
        list.learnt(1, |_| ());
        list.make_by(WINDOW, Recipe64::alone(384, 1f32.to_bits().into()));
        list.make_by(array, Recipe64::one(2f64.powi(130)));
        sounds.far = Recipe::of(0.0);
        list.run('b', sounds, BLOCK, 1);
    }
    list.learnt(2, |s| {
        s.mic.detector.dtd_baseline = 0.0;
        s.mic.paths.output_error_power = 1e6;
    });
    // of partition 1, whose slot is silent
    for (array, x) in [(SHADOW, 1.7e308f64), (OUTPUT, -1.7e308)] {
        list.make_by(array, Recipe64::alone(NUMBERS as u64, x.to_bits()));
    }
    list.block_of(SOME, LOW, SOUND, 0.0);
}

/// What diverges together with something else.
fn divergences(list: &mut List) {
    // the shadow in a block that compares, the output being small, and large, which is moved: the shadow's power is the output's before
    // this block
    for size in [0x3fa, 0x3fe] {
        list.learnt(1, |s| s.mic.detector.dtd_baseline = 0.0);
        list.make_by(SHADOW, Recipe64::noise(1, INFINITE64));
        let kind = [size << 52, SIGN | DIGITS];
        list.make_by(OUTPUT, Recipe64::noise(word_of(1), kind));
        list.block_of(word_of(4), LOW, SOUND, 0.5);
    }
    // the same where the output cancels: that block is the first of a rescue streak
    list.create(1, true);
    list.run('b', sounds_of(1, SILENCE, SOUND, 0.5), BLOCK, 120);
    list.make_by(SHADOW, Recipe64::noise(1, INFINITE64));
    list.block_of(SOME, SILENCE, SOUND, 0.5);
    // the output, the shadow, and the update, each with the guard
    for array in [OUTPUT, SHADOW] {
        list.learnt(1, |s| s.mic.guard.divergence_out_power = 1e9);
        list.make_by(array, Recipe64::noise(1, INFINITE64));
        list.block_of(SOME, LOW, SOUND, 0.5);
    }
    list.learnt(1, |s| s.mic.guard.divergence_out_power = 1e300);
    list.block_of(SOME, HUGE, LOWER, 0.0);
}

/// A silent far block, at which what the detector stored stays.
fn far_silent(list: &mut List) {
    // the output diverging changes none of it
    let states: [fn(&mut Detector); 2] = [
        |d| d.step_scale = 0.5,
        |d| (d.dtd_collapsed, d.protect_output) = (true, true),
    ];
    for change in states {
        list.learnt(1, |s| change(&mut s.mic.detector));
        list.make_by(OUTPUT, Recipe64::noise(1, INFINITE64));
        list.block_of(SOME, LOW, SILENCE, 0.0);
    }
    // nor does a count below 64, with which an active block would give a step scale of 1 and no verdicts
    let states: [(fn(&mut Detector), u64, Recipe64); 3] = [
        (|d| d.step_scale = 0.5, WINDOW, Recipe64::noise(5, SOUND)),
        (|d| d.protect_output = true, ECHO, Recipe64::one(1e9)),
        (|d| d.dtd_collapsed = true, ECHO, Recipe64::one(1e9)),
    ];
    for (change, array, recipe) in states {
        list.learnt(1, |s| {
            s.mic.detector.dtd_blocks = 10;
            change(&mut s.mic.detector);
        });
        list.make_by(array, recipe);
        list.block_of(SOME, LOW, SILENCE, 0.0);
    }
    // sound in the window before it is none of its own
    list.learnt(1, |s| s.far.far_active = false);
    list.make_by(WINDOW, Recipe64::noise(5, SOUND));
    list.block_of(SOME, LOW, SILENCE, 0.0);
}

/// A microphone that is muted: near is zeros of either sign, and the detector stays as it was (request K5).
fn muted(list: &mut List) {
    let mute = |word, near| Sounds {
        near: Recipe::of(near),
        far: Recipe::noise(word, FULL),
        gain: 0.0,
    };
    // joining muted, for longer than would establish it, and in mid-call; an echo after each
    list.create(2, true);
    for blocks in [70, 40] {
        list.run('b', mute(word_of(blocks), 0.0), BLOCK, blocks as usize);
        list.run(
            'b',
            sounds_of(word_of(blocks + 1), LOW, FULL, 0.5),
            BLOCK,
            75,
        );
    }
    // the least sound is evidence, wherever in the block, and a zero is none, whatever its sign; nor is one sample of a flush
    for (at, sample) in [(0, f32::from_bits(1)), (255, -f32::from_bits(1)), (9, -0.0)] {
        list.learnt(1, |s| s.mic.detector.dtd_blocks = 63);
        let mut sounds = mute(SOME, -0.0);
        sounds.near = sounds.near.marked(at, sample);
        list.run('b', sounds, BLOCK, 1);
        list.run('f', sounds, 1, 1);
    }
    // not a number is no zero
    list.learnt(1, |s| s.mic.detector.dtd_blocks = 63);
    let mut sounds = mute(SOME, 0.0);
    sounds.near = sounds.near.marked(100, f32::NAN);
    list.run('b', sounds, BLOCK, 1);
    // every stored verdict stands, at odds with the flag too, and with a count below 64, with which a block that is learned from gives none
    for (count, collapsed, protected) in [(64, true, false), (64, false, true), (10, true, true)] {
        list.learnt(1, |s| {
            s.mic.detector.dtd_blocks = count;
            s.mic.detector.dtd_collapsed = collapsed;
            s.mic.detector.protect_output = protected;
            s.mic.detector.step_scale = 0.5;
        });
        list.run('b', mute(SOME, 0.0), BLOCK, 1);
        list.block_of(SOME, SILENCE, SILENCE, 0.0);
    }
    // both filters diverge while near is 0.0, and it stays so: the streak comes to 6 with an output power that is not above 0
    list.learnt(1, |_| {});
    list.make_by(SHADOW, Recipe64::noise(1, INFINITE64));
    list.make_by(OUTPUT, Recipe64::noise(1, INFINITE64));
    for _ in 0..8 {
        list.run('b', mute(SOME, 0.0), BLOCK, 1);
    }
}
