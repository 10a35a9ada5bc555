//! Blocks by the samples that went over (request K8): in each of a block's inverses alone and in several, in the half that the block
//! drops, and in none where samples are infinite all the same; from creation and from stored states. They stand at the end of the list, so
//! that the lines before them keep their seeds.

use crate::aspeyruni::tau::reason::*;
use crate::aspeyruni::tau::*;
use crate::inputs::word_of;
use crate::kinds::*;
use crate::recipe::{Recipe, Sounds};
use crate::taken::Inverse::{self, *};
use crate::tau_lines::*;
use crate::List;

pub fn all(list: &mut List) {
    louder(list);
    of_the_output(list);
    of_steps(list);
    of_the_suppressor(list);
    wrapped(list);
    at_the_border(list);
    by_weights(list);
    by_gains(list);
    by_step_scale(list);
    not_counted(list);
}

impl List {
    /// The last line's block has to have gone over in these inverses and in no other, or the case is not what it is here for.
    fn over_in(&self, inverses: &[Inverse]) {
        let overs = self.taken.overs;
        assert_eq!(self.taken.over_in(), inverses, "{overs:?}");
    }

    /// And only in the half of it that the block drops.
    fn over_in_dropped(&self, inverse: Inverse) {
        self.over_in(&[inverse]);
        let all = self.taken.overs_in(inverse);
        assert_eq!(self.taken.dropped_in(inverse), all);
    }

    /// So many.
    fn overs(&self, count: u32) {
        assert_eq!(self.told.overs, count, "{:?}", self.taken.overs);
    }

    fn hear(&mut self, near: Recipe, far: Recipe) {
        let gain = 0.0;
        self.run('b', Sounds { near, far, gain }, BLOCK, 1);
    }
}

/// From creation an echo a good deal louder than its film; and then film a thousand million times as loud, in a flush. Of film that is not
/// learnt well yet the padded places go over too, and many that are dropped.
fn louder(list: &mut List) {
    for (suppress, film, blocks, overs) in [(true, FULL, 12, 200), (false, SOUND, 4, 423)] {
        list.create(2, suppress);
        list.blocks_of(word_of(1), SILENCE, film, 1e34, blocks);
        list.over_in(&[]);
        list.flush_of(word_of(2), SILENCE, LOUDER, 0.0, 200);
        list.over_in(&[Shadow]);
        list.overs(overs);
    }
}

/// From creation the same echo past the moves. It gets louder by so much that one block's step is all of the shadow, which then goes over
/// alone and is lost; film that is louder still takes the output over, alone too; and then nothing is left to.
fn of_the_output(list: &mut List) {
    list.create(1, true);
    list.blocks_of(word_of(1), SILENCE, FULL, 1e34, 90);
    list.block_of(word_of(2), SILENCE, FULL, 1e38);
    list.over_in(&[]);
    list.block_of(word_of(3), SILENCE, LOUD, 0.0);
    list.over_in(&[Shadow]);
    list.block_of(word_of(4), SILENCE, LOUDER, 0.0);
    list.over_in(&[Output]);
    list.because(OUTPUT_DIVERGED);
    list.block_of(word_of(5), SILENCE, LOUDER, 0.0);
    list.over_in(&[]);
}

/// From creation near as loud as samples get over faint film: the steps go over, of each partition that has some. In a flush, which learns
/// nothing, none do.
fn of_steps(list: &mut List) {
    list.create(3, false);
    for k in 1..4 {
        list.block_of(word_of(k), HUGE, LOWER, 0.0);
        list.over_in(&[Gradient]);
    }
    list.flush_of(word_of(4), HUGE, LOWER, 0.0, 255);
    list.over_in(&[]);
}

/// The largest f32, of either sign.
const LARGEST: Kind = [HUGE[0] | 0x7f_ffff, SILENCE[1]];

/// From creation an echo of film that is one number all over, so that the suppressor takes off there alone; near as loud as samples get,
/// which goes over behind it; and near as it was, when the loud block stands in the half that is dropped.
fn of_the_suppressor(list: &mut List) {
    let [near, far] = [0.5, 1.0].map(Recipe::of);
    list.create(1, true);
    let gain = 0.0;
    list.run('b', Sounds { near, far, gain }, BLOCK, 100);
    list.hear(Recipe::noise(word_of(1), LARGEST), far);
    list.over_in(&[Suppressed]);
    list.hear(near, far);
    list.over_in_dropped(Suppressed);
}

/// From creation an echo of one far sample, 200 samples later. Of a click so late in its block that its echo comes in the next, what goes
/// over is in the half that is dropped; and in the next block, in the other.
fn wrapped(list: &mut List) {
    let silence = Recipe::of(0.0);
    list.create(1, true);
    let learnt = Sounds {
        near: silence.marked(200, 1e34),
        far: silence.marked(0, 1.0),
        gain: 0.0,
    };
    list.run('b', learnt, BLOCK, 20);
    list.hear(silence, silence.marked(100, 1e9));
    list.over_in_dropped(Shadow);
    list.hear(silence, silence);
    list.over_in(&[Shadow]);
    list.overs(1);
}

/// 2^128 - 2^103, halfway between the largest f32 and the next that there would be.
const BORDER: f64 = 340282356779733661637539395458142568448.0;

/// The weight of bin 0 alone, over a window of ones: all samples are that weight.
fn at_the_border(list: &mut List) {
    let below = BORDER.next_down();
    list.learnt(1, |_| {});
    list.make_by(WINDOW, Recipe64::noise(0, [1f32.to_bits().into(), 0]));
    for (array, weight, overs) in [
        (SHADOW, BORDER, 512),
        (OUTPUT, -BORDER, 512),
        (SHADOW, below, 0),
        (OUTPUT, -below, 0),
    ] {
        list.make_by(array, Recipe64::alone(0, weight.to_bits()));
        list.hear(Recipe::of(0.0), Recipe::of(1.0));
        list.overs(overs);
    }
}

/// Stored weights about the largest f32, of the shadow, of the output, of both; and equal ones, with one far sample in the block before: at
/// its place, which is dropped, one goes over, or that and the two beside it.
fn by_weights(list: &mut List) {
    for (arrays, inverses) in [
        (&[SHADOW][..], &[Shadow][..]),
        (&[OUTPUT], &[Output]),
        (&[SHADOW, OUTPUT], &[Shadow, Output]),
    ] {
        list.learnt(2, |s| s.suppress = arrays.len() == 1);
        for array in arrays {
            list.make_by(*array, Recipe64::noise(word_of(*array), OVER64));
        }
        list.block_of(word_of(1), LOW, FULL, 0.5);
        list.over_in(inverses);
    }
    for (array, inverse, size, overs) in [(SHADOW, Shadow, 1.25, 1), (OUTPUT, Output, 2.0, 3)] {
        list.learnt(1, |_| {});
        list.make_by(WINDOW, Recipe64::alone(384, 1f32.to_bits().into()));
        list.make_by(array, Recipe64::one(size * 2f64.powi(128)));
        list.hear(Recipe::noise(word_of(1), LOW), Recipe::of(0.0));
        list.over_in_dropped(inverse);
        list.overs(overs);
    }
}

/// Stored gains above 1, which no suppressor leaves: near goes over behind them, and the guard, which then gives near back, takes nothing
/// off; a loud block before goes over where it is dropped. Without suppression, and where far never sounded, they are not used.
fn by_gains(list: &mut List) {
    let loud = |list: &mut List, change: fn(&mut TauCanceller)| {
        list.learnt(1, change);
        list.make_by(GAIN, Recipe64::one(8.0));
    };
    loud(list, |_| {});
    list.block_of(word_of(1), HUGE, FULL, 0.0);
    list.over_in(&[Suppressed]);
    assert!(list.taken.guarded);
    loud(list, |_| {});
    list.make_by(ERROR_WINDOW, Recipe64::noise(word_of(2), HUGE));
    list.flush_of(word_of(3), LOW, FULL, 0.0, 255);
    list.over_in_dropped(Suppressed);
    loud(list, |s| s.suppress = false);
    list.block_of(word_of(1), HUGE, FULL, 0.0);
    list.over_in(&[]);
    loud(list, |s| s.far.far_active = false);
    list.block_of(word_of(1), HUGE, SILENCE, 0.0);
    list.over_in(&[]);
}

/// A stored step scale that no detector leaves, which film that is not active keeps: every step goes over, of all three partitions, and
/// what is lost by it, the shadow, takes nothing off. With loud gains besides; and after a rescue, which takes no step.
fn by_step_scale(list: &mut List) {
    for (gain, inverses) in [(1.0, &[Gradient][..]), (8.0, &[Gradient, Suppressed])] {
        list.learnt(3, |s| {
            s.far.far_energy_peak = 1e9;
            s.mic.detector.step_scale = 1e60;
        });
        list.make_by(GAIN, Recipe64::one(gain));
        list.make_by(SPECTRA, Recipe64::noise(word_of(1), SOUND64));
        list.block_of(word_of(2), HUGE, SOUND, 0.0);
        list.over_in(inverses);
        assert_eq!(list.taken.overs_in(Gradient), 3 * 512);
        assert!(list.taken.update_diverged);
    }
    // without the rescue this block's step goes over too
    for (streak, reason, inverses) in [(7, RESCUED, &[][..]), (6, NO_ADVANTAGE, &[Gradient])] {
        list.learnt(1, |s| {
            s.suppress = false;
            s.far.far_energy_peak = 0.0;
            s.mic.detector.dtd_baseline = 0.0;
            s.mic.paths.shadow_error_power = 1e90;
            s.mic.paths.rescue_streak = streak;
        });
        list.block_of(word_of(1), HUGE, LOWER, 0.0);
        list.because(reason);
        list.over_in(inverses);
    }
}

/// Samples that are infinite or NaN and did not go over: of a weight that is infinite, NaN, or so large that sums are infinite; and an
/// error that is infinite, of two finite numbers.
fn not_counted(list: &mut List) {
    list.learnt(1, |_| {});
    for (array, weight) in [
        (OUTPUT, f64::INFINITY),
        (SHADOW, f64::NEG_INFINITY),
        (OUTPUT, f64::NAN),
        (SHADOW, f64::MAX),
    ] {
        list.make_by(array, Recipe64::alone(0, weight.to_bits()));
        list.block_of(word_of(1), LOW, FULL, 0.5);
        list.over_in(&[]);
        assert!(list.taken.diverged || list.taken.shadow_diverged);
    }
    // some points infinite, and others finite and over
    list.learnt(1, |_| {});
    list.make_by(WINDOW, Recipe64::alone(384, 1f32.to_bits().into()));
    list.make_by(SHADOW, Recipe64::one(2f64.powi(1021)));
    list.hear(Recipe::noise(word_of(1), LOW), Recipe::of(0.0));
    list.overs(360);
    list.learnt(1, |_| {});
    list.make_by(WINDOW, Recipe64::noise(0, [1f32.to_bits().into(), 0]));
    list.make_by(OUTPUT, Recipe64::alone(0, f64::from(f32::MIN).to_bits()));
    list.hear(Recipe::of(f32::MAX), Recipe::of(1.0));
    list.over_in(&[]);
    list.because(OUTPUT_DIVERGED);
}
