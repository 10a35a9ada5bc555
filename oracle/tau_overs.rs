//! Calls by what they report to have gone over in their last block (request K8): from creation and from stored states, in each of a block's
//! inverses, in a block before the last alone, and nothing where the call ran no block.

use crate::aspeyruni::tau::reason::*;
use crate::aspeyruni::tau::*;
use crate::inputs::word_of;
use crate::kinds::*;
use crate::recipe::{sounds_of, Recipe, Sounds};
use crate::taken::Inverse::{self, *};
use crate::tau_lines::*;
use crate::{ones, List};

pub fn all(list: &mut List) {
    louder(list);
    no_block(list);
    last_of_several(list);
    of_steps(list);
    of_the_output(list);
    of_the_suppressor(list);
    at_the_border(list);
    by_weights(list);
    by_gains(list);
    by_step_scale(list);
    not_counted(list);
}

impl List {
    /// Of the last call, the last block has to have gone over in these inverses and in no other, or the case is not what it is here for.
    fn over_in(&self, inverses: &[Inverse]) {
        let last = self.blocks.last().expect("a block");
        assert_eq!(last.over_in(), inverses, "{:?}", last.overs);
        assert_eq!(last.all_overs(), self.overs);
    }

    fn over_in_dropped(&self, inverse: Inverse) {
        self.over_in(&[inverse]);
        let last = self.blocks.last().expect("a block");
        assert_eq!(last.dropped_in(inverse), last.overs_in(inverse));
    }

    /// As many blocks as the call ran, and whether each went over.
    fn over_by_blocks(&self, wanted: &[bool]) {
        let over: Vec<bool> = self.blocks.iter().map(|t| t.all_overs() > 0).collect();
        assert_eq!(over, wanted);
        assert_eq!(self.overs > 0, wanted.last() == Some(&true));
    }

    fn block_of(&mut self, word: u64, near: Kind, far: Kind) {
        self.pairs(sounds_of(word_of(word), near, far, 0.0), BLOCK);
    }

    /// One number all over.
    fn fill(&mut self, array: u64, x: f64) {
        self.make_by(array, Recipe64::one(x));
    }

    /// One number alone, and +0.0 all over else.
    fn alone(&mut self, array: u64, place: u64, x: f64) {
        self.make_by(array, Recipe64::alone(place, x.to_bits()));
    }
}

/// An echo a good deal louder than its film.
fn echo() -> Sounds {
    sounds_of(word_of(1), SILENCE, FULL, 1e34)
}

/// From creation that echo; and then film a thousand million times as loud, in a flush. Of film that is not learnt well yet the padded
/// places go over too, and many that are dropped.
fn louder(list: &mut List) {
    for (suppress, film, blocks, overs) in [(true, FULL, 12, 200), (false, SOUND, 4, 434)] {
        list.create(2, suppress);
        list.pairs(sounds_of(word_of(1), SILENCE, film, 1e34), blocks * BLOCK);
        list.over_in(&[]);
        list.pairs(sounds_of(word_of(2), SILENCE, LOUDER, 0.0), 200);
        list.over_by_blocks(&[]);
        list.flush();
        list.over_in(&[Shadow]);
        assert_eq!(list.overs, overs);
    }
}

/// After that flush: another, which has nothing to deliver, and calls of no pairs, of too few for a block, and refused, by each reason. And
/// after a reset.
fn no_block(list: &mut List) {
    list.flush();
    list.over_by_blocks(&[]);
    for (pairs, room) in [
        ([0, 0], 0),
        ([255, 255], 0),
        ([256, 255], 256),
        ([4_097, 4_097], 4_104),
        ([256, 256], 255),
    ] {
        list.process_any(ones(), pairs, room);
        list.over_by_blocks(&[]);
    }
    list.lent[2] -= 1;
    list.process_any(ones(), [256, 256], 256);
    list.over_by_blocks(&[]);
    list.lent[2] += 1;
    list.reset();
    list.set(|s| s.carried = 256);
    list.flush();
    list.over_by_blocks(&[]);
}

/// From creation that echo, and two blocks in a call with one far sample a good deal louder, in the first or in the second; and with some
/// pairs left, which are then flushed.
fn last_of_several(list: &mut List) {
    for (at, pairs, over) in [
        (10, 512, [true, false]),
        (300, 512, [false, true]),
        (300, 700, [false, true]),
    ] {
        list.create(1, true);
        list.pairs(echo(), 12 * BLOCK);
        let click = Sounds {
            near: Recipe::of(0.0),
            far: Recipe::of(0.0).marked(at, 1e9),
            gain: 0.0,
        };
        list.pairs(click, pairs);
        list.over_by_blocks(&over);
    }
    list.flush();
    list.over_by_blocks(&[false]);
}

/// From creation near as loud as samples get over faint film: the steps go over. In a flush, which takes none, nothing does.
fn of_steps(list: &mut List) {
    let loud = sounds_of(word_of(3), HUGE, LOWER, 0.0);
    list.create(3, false);
    list.pairs(loud, 3 * BLOCK + 100);
    list.over_by_blocks(&[true; 3]);
    list.over_in(&[Gradient]);
    list.flush();
    list.over_by_blocks(&[false]);
}

/// From creation that echo past the moves. It gets louder by so much that one block's step is all of the shadow, which then goes over alone
/// and is lost; film that is louder still takes the output over, alone too.
fn of_the_output(list: &mut List) {
    list.create(1, true);
    list.long(echo(), 90);
    list.pairs(sounds_of(word_of(2), SILENCE, FULL, 1e38), BLOCK);
    list.over_in(&[]);
    list.block_of(3, SILENCE, LOUD);
    list.over_in(&[Shadow]);
    list.block_of(4, SILENCE, LOUDER);
    list.over_in(&[Output]);
    list.because(OUTPUT_DIVERGED);
}

/// The largest f32, of either sign.
const LARGEST: Kind = [HUGE[0] | 0x7f_ffff, SILENCE[1]];

/// From creation an echo of film that is one number all over, so that the suppressor takes off there alone; near as loud as samples get,
/// which goes over behind it; and near as it was, when the loud block stands in the half that is dropped.
fn of_the_suppressor(list: &mut List) {
    let [near, far] = [0.5, 1.0].map(Recipe::of);
    let gain = 0.0;
    list.create(1, true);
    list.long(Sounds { near, far, gain }, 96);
    let loud = Recipe::noise(word_of(1), LARGEST);
    list.pairs(
        Sounds {
            near: loud,
            far,
            gain,
        },
        BLOCK,
    );
    list.over_in(&[Suppressed]);
    list.pairs(Sounds { near, far, gain }, BLOCK);
    list.over_in_dropped(Suppressed);
}

/// 2^128 - 2^103, halfway between the largest f32 and the next that there would be.
const BORDER: f64 = 340282356779733661637539395458142568448.0;

/// The weight of bin 0 alone, over a window of ones: all samples are that weight.
fn at_the_border(list: &mut List) {
    let mut film = ones();
    film.near = Recipe::of(0.0);
    list.established(1, true);
    list.make_by(WINDOW, Recipe64::noise(0, [1f32.to_bits().into(), 0]));
    for (array, weight, overs) in [
        (SHADOW, -BORDER, 512),
        (OUTPUT, BORDER, 512),
        (SHADOW, -BORDER.next_down(), 0),
    ] {
        list.alone(array, 0, weight);
        list.pairs(film, BLOCK);
        assert_eq!(list.overs, overs);
    }
}

/// Stored weights about the largest f32, of the shadow, of the output, of both; and equal ones, with one far sample in the block before: at
/// its place, which is dropped, one goes over.
fn by_weights(list: &mut List) {
    for (arrays, inverses) in [
        (&[SHADOW][..], &[Shadow][..]),
        (&[OUTPUT], &[Output]),
        (&[SHADOW, OUTPUT], &[Shadow, Output]),
    ] {
        list.established(2, arrays.len() == 1);
        for array in arrays {
            list.make_by(*array, Recipe64::noise(word_of(*array), OVER64));
        }
        list.block_of(1, LOW, FULL);
        list.over_in(inverses);
    }
    list.established(1, true);
    list.make_by(WINDOW, Recipe64::alone(384, 1f32.to_bits().into()));
    list.fill(SHADOW, 1.25 * 2f64.powi(128));
    list.block_of(1, LOW, SILENCE);
    list.over_in_dropped(Shadow);
    assert_eq!(list.overs, 1);
}

/// Stored gains above 1, which no suppressor leaves: near goes over behind them; and a loud block before, in a flush, where it is dropped.
fn by_gains(list: &mut List) {
    list.established(1, true);
    list.fill(GAIN, 8.0);
    list.block_of(1, HUGE, FULL);
    list.over_in(&[Suppressed]);
    list.fill(GAIN, 8.0);
    list.fill(SHADOW, 0.0);
    list.pairs(sounds_of(word_of(2), LOW, FULL, 0.0), 255);
    list.flush();
    list.over_in_dropped(Suppressed);
}

/// A stored step scale that no detector leaves, which film that is not active keeps: every step goes over, of all three partitions. And
/// gains above 1, without suppression and with it.
fn by_step_scale(list: &mut List) {
    for (suppress, inverses) in [(false, &[Gradient][..]), (true, &[Gradient, Suppressed])] {
        list.established(3, suppress);
        list.set(|s| {
            s.far.far_energy_peak = 1e9;
            s.mic.detector.step_scale = 1e60;
        });
        list.make_by(SPECTRA, Recipe64::noise(word_of(1), SOUND64));
        list.fill(GAIN, 8.0);
        list.block_of(2, HUGE, SOUND);
        list.over_in(inverses);
        assert_eq!(list.overs, if suppress { 7 } else { 6 } * 256);
    }
}

/// Weights that are infinite, NaN, or so large that sums are infinite: the samples are no numbers, or infinite, and did not go over.
fn not_counted(list: &mut List) {
    list.established(1, true);
    for (array, weight) in [
        (OUTPUT, f64::INFINITY),
        (SHADOW, f64::NAN),
        (OUTPUT, f64::MAX),
    ] {
        list.alone(array, 0, weight);
        let resets = list.state.mic.divergence_resets;
        list.block_of(1, LOW, FULL);
        list.over_in(&[]);
        assert!(resets < list.state.mic.divergence_resets);
    }
}
