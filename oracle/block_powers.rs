//! Blocks by the kept powers (request K10): true ones, of which every block writes a slot, whether it learns or not; and false ones, which
//! are followed until their slot is written. They stand at the end of the list, so that the lines before them keep their seeds.

use crate::aspeyruni::tau::reason::*;
use crate::aspeyruni::tau::*;
use crate::inputs::word_of;
use crate::kinds::*;
use crate::recipe::{Recipe, Sounds};
use crate::tau_lines::*;
use crate::List;

pub fn all(list: &mut List) {
    written(list);
    written_without_update(list);
    of_stored_spectra(list);
    smallest(list);
    followed(list);
    written_next(list);
    one_alone(list);
    not_used(list);
    what_they_did_stays(list);
}

impl List {
    /// Whether a power was false before the last line's last block, and is after it, or the case is not what it is here for.
    fn powers_false(&self, before: bool, after: bool) {
        let taken = &self.taken;
        assert_eq!(taken.had_false_powers, before);
        assert_eq!(taken.has_false_powers, after);
    }

    fn false_powers(&mut self, word: u64, kind: Kind) {
        self.make_by(POWERS, Recipe64::noise(word_of(word), kind));
    }

    /// One power of a slot, by its bin, and +0.0 all over else.
    fn power(&mut self, slot: usize, bin: usize, x: f64) {
        let place = BINS * slot + bin;
        self.make_by(POWERS, Recipe64::alone(place as u64, x.to_bits()));
    }
}

/// From creation: every slot written and some again, by a flush, with a muted microphone, with silence and as loud as samples get.
fn written(list: &mut List) {
    for partitions in [1, 2, 4, 13, 32] {
        list.create(partitions, partitions != 2);
        list.blocks_of(word_of(1), LOW, FULL, 0.5, partitions);
        list.flush_of(word_of(2), LOW, SOUND, 0.5, 77);
        for (near, far) in [(SILENCE, FULL), (LOW, SILENCE), (LOW, SILENCE), (LOW, HUGE)] {
            list.block_of(word_of(3), near, far, 0.0);
        }
        list.powers_false(false, false);
    }
}

/// The slot is written where nothing is learnt too: the output or the shadow diverges, the shadow is rescued. And powers that are NaN are
/// true where the spectrum is: of a far sample that is no number, which a foreign carry may have.
fn written_without_update(list: &mut List) {
    for array in [SHADOW, OUTPUT] {
        list.learnt(2, |_| {});
        list.make_by(array, Recipe64::noise(1, INFINITE64));
        list.block_of(word_of(1), LOW, SOUND, 0.5);
    }
    list.learnt(2, |s| {
        s.mic.paths.shadow_error_power = 1e9;
        s.mic.paths.rescue_streak = 7;
    });
    list.block_of(word_of(1), SILENCE, SOUND, 0.0);
    list.because(RESCUED);
    list.learnt(2, |_| {});
    let sounds = Sounds {
        near: Recipe::noise(word_of(1), LOW),
        far: Recipe::noise(word_of(2), FULL).marked(9, f32::NAN),
        gain: 0.0,
    };
    list.run('b', sounds, BLOCK, 1);
    list.powers_false(false, false);
    list.blocks_of(word_of(3), LOW, FULL, 0.5, 3);
}

/// Of stored spectra that no call leaves, with the powers that they have: infinite where a square is, 0.0 where it is too small.
fn of_stored_spectra(list: &mut List) {
    for kind in [SOUND64, LARGE64, SUBNORMAL64, INFINITE64, NAN64] {
        list.learnt(4, |s| s.far.head = 1);
        list.make_by(SPECTRA, Recipe64::noise(word_of(1), kind));
        list.block_of(word_of(2), LOW, SOUND, 0.5);
        list.powers_false(false, false);
        list.blocks_of(word_of(3), LOW, SOUND, 0.5, 4);
    }
}

/// A bin's power is -2.0 and its mean 1.0: the step factor is 4.0, where true powers give at most 1. The same of -1e9. The false one is in
/// the slot that is not written next, and the only one there is, its spectrum being 1.0.
fn smallest(list: &mut List) {
    for (power, factor) in [(-2.0, 4.0), (-1e9, 1e18)] {
        list.learnt(2, |s| s.far.head = 1);
        list.make_by(MEAN, Recipe64::one(1.0));
        let place = NUMBERS + 2 * 5;
        list.make_by(SPECTRA, Recipe64::alone(place as u64, 1f64.to_bits()));
        list.power(1, 5, power);
        list.block_of(word_of(1), LOW, SILENCE, 0.0);
        assert_eq!(list.taken.most_step, factor);
        list.powers_false(true, true);
        list.block_of(word_of(2), LOW, SILENCE, 0.0);
        list.powers_false(true, false);
    }
}

/// From creation an echo, and then powers that are false all over: in the first block, in the last before they are gone, and in the one
/// that writes the last slot of them, which gives what true ones give.
fn followed(list: &mut List) {
    for (partitions, kinds) in [
        (2, &FALSE64[..]),
        (4, &FALSE64),
        (13, &FALSE64[..3]),
        (32, &FALSE64[..3]),
    ] {
        list.create(partitions, true);
        list.blocks_of(word_of(1), LOW, FULL, 0.5, partitions + 2);
        for kind in kinds {
            list.make_by(MEAN, Recipe64::noise(word_of(2), POWER64));
            list.false_powers(3, *kind);
            list.block_of(word_of(4), LOW, FULL, 0.5);
            list.powers_false(true, true);
            if partitions > 2 {
                list.blocks_of(word_of(5), LOW, FULL, 0.5, partitions - 2);
                list.powers_false(true, true);
            }
            list.block_of(word_of(6), LOW, FULL, 0.5);
            list.powers_false(true, false);
        }
        list.block_of(word_of(7), LOW, FULL, 0.5);
        list.powers_false(false, false);
    }
}

/// False in the slot alone that is written next, which nothing reads: with one partition all powers, and one of four slots.
fn written_next(list: &mut List) {
    for kind in [NEGATIVE64, LARGE64, INFINITE64, NAN64] {
        list.learnt(1, |_| {});
        list.false_powers(1, kind);
        list.block_of(word_of(2), LOW, FULL, 0.5);
        list.powers_false(true, false);
    }
    for (head, x) in [(0, f64::NAN), (1, -1e9), (3, f64::INFINITY)] {
        list.learnt(4, |s| s.far.head = head);
        list.power((head + 1) % 4, 7, x);
        list.block_of(word_of(2), LOW, FULL, 0.5);
        list.powers_false(true, false);
    }
}

/// One number that is false, at either end of a slot, and in the slot that is written last of four.
fn one_alone(list: &mut List) {
    let (infinite, nan) = (f64::INFINITY, f64::NAN);
    for (bin, x) in [
        (0, -1.0),
        (256, -1e9),
        (256, 1e308),
        (0, infinite),
        (1, -infinite),
        (255, nan),
        (3, -0.0),
    ] {
        list.learnt(4, |s| s.far.head = 1);
        list.make_by(MEAN, Recipe64::one(0.5));
        list.power(1, bin, x);
        list.block_of(word_of(1), LOW, FULL, 0.5);
        list.powers_false(true, true);
        list.blocks_of(word_of(2), LOW, FULL, 0.5, 2);
        list.powers_false(true, true);
        list.block_of(word_of(3), LOW, FULL, 0.5);
        list.powers_false(true, false);
    }
}

/// Where nothing is learnt they are not used, and stay: in a flush, where a filter diverges, after a rescue.
fn not_used(list: &mut List) {
    list.learnt(3, |_| {});
    list.false_powers(1, NAN64);
    list.flush_of(word_of(2), LOW, FULL, 0.5, 200);
    list.powers_false(true, true);
    for array in [SHADOW, OUTPUT] {
        list.learnt(3, |_| {});
        list.false_powers(1, NAN64);
        list.make_by(array, Recipe64::noise(1, INFINITE64));
        list.block_of(word_of(2), LOW, SOUND, 0.5);
        list.powers_false(true, true);
    }
    list.learnt(3, |s| {
        s.mic.paths.shadow_error_power = 1e9;
        s.mic.paths.rescue_streak = 7;
    });
    list.false_powers(1, NAN64);
    list.block_of(word_of(2), SILENCE, SOUND, 0.0);
    list.because(RESCUED);
    list.powers_false(true, true);
    assert!(list.state.mic.far_power_mean.iter().all(|x| *x == 0.0));
}

/// From creation an echo that is learnt, with means that are the film's; then steps the other way, and the echo until the shadow is
/// rescued.
fn what_they_did_stays(list: &mut List) {
    list.create(2, true);
    list.blocks_of(word_of(1), SILENCE, SOUND, 0.5, 120);
    list.make_by(POWERS, Recipe64::one(-1e4));
    list.block_of(word_of(2), LOW, SOUND, 0.5);
    list.powers_false(true, true);
    assert!(list.taken.most_step > 1.0);
    list.block_of(word_of(3), SILENCE, SOUND, 0.5);
    list.powers_false(true, false);
    list.blocks_of(word_of(4), SILENCE, SOUND, 0.5, 7);
    list.because(RESCUED);
}
