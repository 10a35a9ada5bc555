//! Calls by the kept powers (request K10): true ones after every call; false ones, which are followed until their slots are written; and
//! the length of the fourth buffer, for refusal 2.

use crate::aspeyruni::tau::reason::*;
use crate::aspeyruni::tau::*;
use crate::inputs::word_of;
use crate::kinds::*;
use crate::recipe::{sounds_of, Recipe, Sounds};
use crate::tau_lines::*;
use crate::tau_reference::sizes;
use crate::{ones, List, MOST_LENT};

pub fn all(list: &mut List) {
    written(list);
    created_over(list);
    reset_over(list);
    smallest(list);
    followed(list);
    not_used(list);
    refused_creations(list);
    refused_calls(list);
    in_order(list);
    after_wrong_states(list);
    fewer_partitions(list);
}

impl List {
    /// Whether a power was false before the last call's last block, and is after it, or the case is not what it is here for.
    fn powers_false(&self, before: bool, after: bool) {
        let last = self.blocks.last().expect("a block");
        assert_eq!(last.had_false_powers, before);
        assert_eq!(last.has_false_powers, after);
    }

    fn powers_clear(&self) {
        let mut powers = self.buffers[3][..self.lent[3]].iter();
        assert!(powers.all(|x| x.to_bits() == 0));
    }

    fn false_powers(&mut self, word: u64, kind: Kind) {
        self.make_by(POWERS, Recipe64::noise(word_of(word), kind));
    }

    /// So many blocks of an echo.
    fn echo(&mut self, word: u64, blocks: usize) {
        self.long(sounds_of(word_of(word), LOW, FULL, 0.5), blocks);
    }

    /// So much of the powers lent, and of the other buffers what the partitions have.
    fn lend_powers(&mut self, partitions: usize, powers: usize) {
        self.lent = sizes(partitions);
        self.lent[3] = powers;
    }

    fn refused(&self, refusal: u32) {
        assert_eq!(self.refusal, refusal);
    }
}

/// From creation every slot written and some again; pairs that wait, and their flush; a muted microphone; a silent far end, and one as loud
/// as samples get; the engine reset, and used again.
fn written(list: &mut List) {
    for partitions in [1, 2, 4, 13, 32] {
        list.create(partitions, partitions != 2);
        list.powers_clear();
        list.echo(1, partitions + 1);
        list.pairs(sounds_of(word_of(2), LOW, SOUND, 0.5), 77);
        list.flush();
        let mute = Sounds {
            near: Recipe::of(0.0),
            far: Recipe::noise(word_of(3), FULL),
            gain: 0.0,
        };
        list.pairs(mute, 300);
        for (far, pairs) in [(SILENCE, 512), (HUGE, 300)] {
            list.pairs(sounds_of(word_of(4), LOW, far, 0.0), pairs);
        }
        list.flush();
        list.powers_false(false, false);
        list.reset();
        list.powers_clear();
        list.echo(5, 1);
    }
}

/// Creation writes +0.0 over what is lent, whatever was there, and nothing beyond it.
fn created_over(list: &mut List) {
    list.lent = MOST_LENT;
    list.false_powers(1, NAN64);
    list.create(2, true);
    list.powers_clear();
    list.echo(2, 3);
    list.lent = MOST_LENT;
    list.set(|_| {});
}

/// So does a reset. One that is refused leaves false powers as they are.
fn reset_over(list: &mut List) {
    list.create(3, true);
    list.echo(1, 4);
    for kind in [NEGATIVE64, NAN64] {
        list.false_powers(2, kind);
        list.lent[0] -= 1;
        list.reset();
        list.refused(2);
        list.lent[0] += 1;
        list.reset();
        list.powers_clear();
        list.echo(3, 2);
        list.powers_false(false, false);
    }
}

/// A bin's power is -2.0 and its mean 1.0: the step factor is 4.0, where true powers give at most 1. The same of -1e9. The false one is in
/// the slot that is not written next. In calls of a block, and in one call, after whose second block no power is false.
fn smallest(list: &mut List) {
    for (power, factor, calls) in [(-2.0, 4.0, 2), (-2.0, 4.0, 1), (-1e9, 1e18, 1)] {
        list.established(2, true);
        list.make_by(MEAN, Recipe64::one(1.0));
        let place = NUMBERS + 2 * 5;
        list.make_by(SPECTRA, Recipe64::alone(place as u64, 1f64.to_bits()));
        let place = BINS + 5;
        list.make_by(POWERS, Recipe64::alone(place as u64, f64::to_bits(power)));
        for _ in 0..calls {
            let sounds = sounds_of(word_of(1), LOW, SILENCE, 0.0);
            list.pairs(sounds, 2 / calls * BLOCK);
            if list.blocks[0].has_false_powers {
                assert_eq!(list.blocks[0].most_step, factor);
            }
        }
        list.powers_false(true, false);
    }
}

/// From creation an echo, and then powers that are false all over, until they are gone, and a flush. With one partition no block uses them.
fn followed(list: &mut List) {
    for (partitions, kinds) in [
        (1, &FALSE64[..3]),
        (2, &FALSE64),
        (4, &FALSE64[..4]),
        (13, &FALSE64[..3]),
        (32, &FALSE64[..2]),
    ] {
        list.create(partitions, true);
        list.echo(1, partitions + 2);
        for kind in kinds {
            list.make_by(MEAN, Recipe64::noise(word_of(2), POWER64));
            list.false_powers(3, *kind);
            if partitions > 1 {
                list.echo(4, partitions - 1);
                list.powers_false(true, true);
            }
            list.pairs(sounds_of(word_of(5), LOW, FULL, 0.5), BLOCK + 9);
            list.powers_false(true, false);
            list.flush();
            list.powers_false(false, false);
        }
        list.echo(6, 1);
    }
}

/// Where no block runs, or none that learns, they are not used, and those stay that no block writes over: no pairs, too few, an empty
/// flush, a flush, an output that diverges, a shadow that is rescued.
fn not_used(list: &mut List) {
    list.established(3, true);
    list.false_powers(1, NAN64);
    list.pairs(ones(), 0);
    list.flush();
    list.pairs(sounds_of(word_of(2), LOW, FULL, 0.5), 200);
    list.flush();
    list.powers_false(true, true);
    list.make_by(OUTPUT, Recipe64::noise(1, INFINITE64));
    list.pairs(sounds_of(word_of(3), LOW, FULL, 0.5), BLOCK);
    list.because(OUTPUT_DIVERGED);
    list.powers_false(true, true);
    list.set(|s| {
        s.mic.paths.shadow_error_power = 1e9;
        s.mic.paths.rescue_streak = 7;
    });
    list.pairs(sounds_of(word_of(4), SILENCE, FULL, 0.0), BLOCK);
    list.because(RESCUED);
    list.powers_false(true, false);
    assert!(list.state.mic.far_power_mean.iter().all(|x| *x == 0.0));
}

/// One short, one long, none, as many as of a buffer of spectra, and 256 for each partition.
fn wrong(partitions: usize) -> [usize; 5] {
    let right = BINS * partitions;
    [right - 1, right + 1, 0, 2 * right, BLOCK * partitions]
}

/// As many as the program's buffer has.
fn most(powers: &usize) -> bool {
    *powers <= MOST_LENT[3]
}

/// Refusal 2 by the powers alone, over buffers that hold something; and 1 before it.
fn refused_creations(list: &mut List) {
    list.lent = MOST_LENT;
    list.false_powers(1, SOUND64);
    for partitions in [1, 2, 32] {
        for powers in wrong(partitions).into_iter().filter(most) {
            list.lend_powers(partitions, powers);
            list.create_any(partitions, true);
            list.refused(2);
        }
    }
    for partitions in [0, 33, usize::MAX] {
        list.lend_powers(2, 513);
        list.create_any(partitions, true);
        list.refused(1);
    }
}

/// Refusal 2 by the powers alone, of each call, amid a stream that goes on as if it had not been.
fn refused_calls(list: &mut List) {
    for partitions in [1, 2, 32] {
        list.create(partitions, true);
        list.echo(1, 3);
        list.pairs(sounds_of(word_of(2), LOW, FULL, 0.5), 200);
        for powers in wrong(partitions).into_iter().filter(most) {
            list.lend_powers(partitions, powers);
            list.process_any(ones(), [256, 256], 256);
            list.refused(2);
            if partitions == 2 {
                list.flush();
                list.refused(2);
                list.reset();
                list.refused(2);
                list.process_any(ones(), [0, 0], 0);
                list.refused(2);
            }
        }
        list.lent = sizes(partitions);
        list.pairs(sounds_of(word_of(3), LOW, FULL, 0.5), 100);
        list.flush();
        list.refused(0);
    }
}

/// With powers of a wrong length 2 comes before 3, 4 and 5; with the right one these come.
fn in_order(list: &mut List) {
    list.create(2, true);
    list.pairs(ones(), 200);
    for (powers, is_right) in [(515, false), (514, true)] {
        list.lend_powers(2, powers);
        for (pairs, room, refusal) in [
            ([2, 1], 300, 3),
            ([4_097, 4_097], 4_104, 4),
            ([256, 256], 255, 5),
        ] {
            list.process_any(ones(), pairs, room);
            list.refused(if is_right { refusal } else { 2 });
        }
        list.flush_in(199);
        list.refused(if is_right { 5 } else { 2 });
    }
}

/// 6 comes before 2, of each call.
fn after_wrong_states(list: &mut List) {
    list.create(2, true);
    list.lend_powers(2, 513);
    let right = list.state;
    let states: [fn(&mut TauCanceller); 5] = [
        |s| s.carried = 256,
        |s| s.partitions = 33,
        |s| s.far.head = 2,
        |s| s.mic.paths.rescue_streak = 8,
        |s| s.mic.detector.dtd_blocks = 65,
    ];
    for (i, change) in states.into_iter().enumerate() {
        list.set(|s| {
            *s = right;
            change(s);
        });
        match i % 3 {
            0 => list.process_any(ones(), [256, 256], 256),
            1 => list.flush(),
            _ => list.reset(),
        }
        list.refused(6);
    }
}

/// A state is set to one partition, and 257 powers are what it takes then.
fn fewer_partitions(list: &mut List) {
    list.create(2, true);
    list.echo(1, 3);
    list.set(|s| (s.partitions, s.far.head) = (1, 0));
    for (powers, refusal) in [(514, 2), (257, 0)] {
        list.lend_powers(1, powers);
        list.process_any(ones(), [256, 256], 256);
        list.refused(refusal);
    }
}
