//! Blocks by the reason why the output filter stands still (request K2): every one from creation and from a stored state, most of them
//! where the next reason holds too, or where the state that is left would tell another. They stand at the end of the list, so that the
//! lines before them keep their seeds.

use crate::aspeyruni::tau::reason::*;
use crate::aspeyruni::tau::*;
use crate::block_borders::SOME;
use crate::inputs::word_of;
use crate::kinds::*;
use crate::recipe::{sounds_of, Recipe};
use crate::tau_lines::*;
use crate::List;

pub fn all(list: &mut List) {
    first_move(list);
    lost_output(list);
    spoilt_shadow(list);
    in_order(list);
    by_count(list);
    by_powers(list);
    amid_streaks(list);
    by_this_block(list);
    not_by_the_state_left(list);
}

impl List {
    /// The last line's block has to give this reason, or the case is not what it is here for.
    pub fn because(&self, reason: u32) {
        assert_eq!(self.told.reason.number(), reason, "{:?}", self.told);
    }

    /// So many blocks in one line.
    pub fn blocks_of(&mut self, word: u64, near: Kind, far: Kind, gain: f32, count: usize) {
        self.run('b', sounds_of(word, near, far, gain), BLOCK, count);
    }

    pub fn flush_of(&mut self, word: u64, near: Kind, far: Kind, gain: f32, valid: usize) {
        self.run('f', sounds_of(word, near, far, gain), valid, 1);
    }
}

/// From creation to the first move: block 63 with far sound is the last that is not established, 64 has a quiet streak of 1, and 69 is the
/// first that may move. Then far silent and faint, a flush, and the echo until the shadow removes no more of it than the output.
fn first_move(list: &mut List) {
    list.create(1, true);
    list.block_of(word_of(1), LOW, SILENCE, 0.0);
    list.because(FAR_NOT_ACTIVE);
    list.blocks_of(word_of(2), LOW, FULL, 0.5, 62);
    for (k, reason) in (3..).zip([NOT_ESTABLISHED, QUIET_STREAK_SHORT]) {
        list.block_of(word_of(k), LOW, FULL, 0.5);
        list.because(reason);
    }
    assert_eq!(list.state.mic.paths.quiet_streak, 1);
    list.blocks_of(word_of(5), LOW, FULL, 0.5, 4);
    list.because(QUIET_STREAK_SHORT);
    list.block_of(word_of(6), LOW, FULL, 0.5);
    list.because(MOVED);
    for far in [SILENCE, FAINT] {
        list.block_of(word_of(7), LOW, far, 0.5);
        list.because(FAR_NOT_ACTIVE);
    }
    list.flush_of(word_of(8), LOW, FULL, 0.5, 100);
    list.because(FLUSH_BLOCK);
    list.blocks_of(word_of(9), LOW, FULL, 0.5, 60);
    list.because(NO_ADVANTAGE);
}

/// From creation an echo that is as large as samples get. Then the output diverges: in a flush, while far is not active, and while near is
/// muted and stays so, which leaves the powers at 0 and the streak as it was.
fn lost_output(list: &mut List) {
    let huge = 1.9 * 2f32.powi(126);
    for lose in [
        |list: &mut List| {
            list.flush_of(SOME, SILENCE, LOUD, 0.0, 200);
            list.because(FLUSH_BLOCK);
        },
        |list: &mut List| {
            let mut sounds = sounds_of(SOME, HUGE, LOWER, 0.0);
            sounds.near = Recipe::of(f32::MAX);
            list.run('b', sounds, BLOCK, 1);
            list.because(OUTPUT_DIVERGED);
        },
        |list: &mut List| {
            list.block_of(SOME, SILENCE, LOUD, 0.0);
            list.because(OUTPUT_DIVERGED);
            for k in 1..4 {
                list.block_of(word_of(k), SILENCE, FULL, 0.0);
                list.because(NO_OUTPUT_POWER);
            }
        },
    ] {
        list.create(1, true);
        list.blocks_of(word_of(1), SILENCE, FULL, huge, 100);
        let resets = list.state.mic.divergence_resets;
        lose(list);
        assert!(resets < list.state.mic.divergence_resets);
    }
}

/// From creation an echo that is learnt; the shadow spoilt in a pause of the film, and rescued after 8 blocks of the echo, none of which
/// was quiet.
fn spoilt_shadow(list: &mut List) {
    list.create(2, true);
    list.blocks_of(word_of(1), SILENCE, SOUND, 0.5, 120);
    list.block_of(word_of(2), LOUD, SILENCE, 0.0);
    list.because(FAR_NOT_ACTIVE);
    list.blocks_of(word_of(3), SILENCE, SOUND, 0.5, 7);
    list.because(QUIET_STREAK_SHORT);
    list.block_of(word_of(4), SILENCE, SOUND, 0.5);
    list.because(RESCUED);
    assert_eq!(list.state.mic.paths.quiet_streak, 0);
    list.block_of(word_of(5), SILENCE, SOUND, 0.5);
    list.because(QUIET_STREAK_SHORT);
}

/// Stored states where a later reason holds too: all of them from the first on, then one less at a time.
fn in_order(list: &mut List) {
    let spoilt = Recipe64::noise(1, INFINITE64);
    let all = |s: &mut TauCanceller| {
        s.mic.detector.dtd_blocks = 10;
        s.mic.paths = Paths {
            shadow_error_power: 1e9,
            output_error_power: -1.0,
            quiet_streak: 0,
            rescue_streak: 7,
        };
    };
    list.learnt(1, all);
    list.make_by(OUTPUT, spoilt);
    list.flush_of(SOME, LOW, SILENCE, 0.0, 9);
    list.because(FLUSH_BLOCK);
    list.learnt(1, all);
    list.make_by(OUTPUT, spoilt);
    list.block_of(SOME, LOW, SILENCE, 0.0);
    list.because(OUTPUT_DIVERGED);
    list.learnt(1, all);
    list.block_of(SOME, LOW, SILENCE, 0.0);
    list.because(FAR_NOT_ACTIVE);
    list.learnt(1, all);
    list.block_of(SOME, SILENCE, SOUND, 0.0);
    list.because(NOT_ESTABLISHED);
    list.learnt(1, |s| {
        all(s);
        s.mic.detector.dtd_blocks = 64;
    });
    list.block_of(SOME, SILENCE, SOUND, 0.0);
    list.because(RESCUED);
    // a shadow that is lost is no reason, and its error is near
    list.learnt(1, |s| s.mic.detector.dtd_baseline = 0.0);
    list.make_by(SHADOW, spoilt);
    list.block_of(SOME, LOW, SOUND, 0.5);
    list.because(NO_ADVANTAGE);
}

/// Established or not is by the count that this block leaves, which a muted one does not raise.
fn by_count(list: &mut List) {
    for (count, streak, near, reason) in [
        (62, 9, LOW, NOT_ESTABLISHED),
        (63, 0, LOW, QUIET_STREAK_SHORT),
        (63, 5, LOW, MOVED),
        (63, 9, SILENCE, NOT_ESTABLISHED),
        (64, 9, SILENCE, MOVED),
    ] {
        list.learnt(1, |s| {
            s.mic.detector.dtd_blocks = count;
            s.mic.detector.dtd_baseline = 0.0;
            s.mic.paths.quiet_streak = streak;
        });
        list.block_of(SOME, near, SOUND, 0.0);
        list.because(reason);
    }
}

/// By stored powers of the shadow and of the output, near being muted and the weights 0, so that a block brings no energy. Not above 0 and
/// not at least 0.1 hold of a NaN.
fn by_powers(list: &mut List) {
    let (infinite, nan) = (f64::INFINITY, f64::NAN);
    let least = f64::from_bits(1);
    for (shadow, output, reason) in [
        (1.0, nan, NO_OUTPUT_POWER),
        (nan, nan, NO_OUTPUT_POWER),
        (infinite, nan, NO_OUTPUT_POWER),
        (0.0, 0.0, NO_OUTPUT_POWER),
        (1.0, -0.0, NO_OUTPUT_POWER),
        (-1.0, -1.0, NO_OUTPUT_POWER),
        (nan, -infinite, NO_OUTPUT_POWER),
        (infinite, infinite, NO_ADVANTAGE),
        (nan, 1.0, NO_ADVANTAGE),
        (nan, infinite, NO_ADVANTAGE),
        (infinite, 1.0, NO_ADVANTAGE),
        (1.0, 1.0, NO_ADVANTAGE),
        (least, least, NO_ADVANTAGE),
        (1.0, infinite, MOVED),
        (-infinite, 1.0, MOVED),
        (0.0, least, MOVED),
        (0.75, 1.0, MOVED),
    ] {
        list.learnt(1, |s| {
            s.mic.paths.shadow_error_power = shadow;
            s.mic.paths.output_error_power = output;
        });
        list.block_of(SOME, SILENCE, SOUND, 0.0);
        list.because(reason);
    }
}

/// By the streaks of rescue and of quiet before the block, and the powers: a rescue comes before a short streak and before a power that is
/// not above 0, and a short streak before that power.
fn amid_streaks(list: &mut List) {
    let (infinite, nan) = (f64::INFINITY, f64::NAN);
    for (rescue, quiet, powers, reason) in [
        (7, 4, [1e9, 1.0], RESCUED),
        (7, 9, [1e9, 1.0], RESCUED),
        (7, 9, [1.0, -1.0], RESCUED),
        (7, 0, [infinite, 0.0], RESCUED),
        (6, 4, [1e9, 1.0], QUIET_STREAK_SHORT),
        (6, 5, [1e9, 1.0], NO_ADVANTAGE),
        (7, 4, [4.0, 1.0], QUIET_STREAK_SHORT),
        (7, 4, [nan, nan], QUIET_STREAK_SHORT),
        (0, 4, [1.0, 0.0], QUIET_STREAK_SHORT),
        (7, 5, [nan, nan], NO_OUTPUT_POWER),
        (7, 5, [infinite, infinite], NO_ADVANTAGE),
    ] {
        list.learnt(1, |s| {
            s.mic.paths = Paths {
                shadow_error_power: powers[0],
                output_error_power: powers[1],
                quiet_streak: quiet,
                rescue_streak: rescue,
            }
        });
        list.block_of(SOME, SILENCE, SOUND, 0.0);
        list.because(reason);
    }
    // a verdict that a mute keeps is not quiet
    list.learnt(1, |s| {
        s.mic.detector.protect_output = true;
        s.mic.paths.quiet_streak = u32::MAX;
    });
    list.block_of(SOME, SILENCE, SOUND, 0.0);
    list.because(QUIET_STREAK_SHORT);
}

/// By the powers and the streak with this block in them, where those before it would tell another.
fn by_this_block(list: &mut List) {
    // near makes both errors alike, the output's weights make its own large, and near brings the first power
    for (near, weights, powers, reason) in [
        (LOUD, SILENCE, [1.0, 2.0], NO_ADVANTAGE),
        (LOW, SOUND64, [1.0, 1.0], MOVED),
        (LOW, SOUND64, [0.0, 0.0], MOVED),
        (LOW, SILENCE, [0.0, 0.0], NO_ADVANTAGE),
        (LOUD, SILENCE, [1e3, -1e3], NO_ADVANTAGE),
    ] {
        list.learnt(2, |s| {
            s.mic.detector.dtd_baseline = 0.0;
            s.mic.paths.shadow_error_power = powers[0];
            s.mic.paths.output_error_power = powers[1];
        });
        list.make_by(OUTPUT, Recipe64::noise(SOME, weights));
        list.block_of(SOME, near, SOUND, 0.0);
        list.because(reason);
    }
    // far sounded before and sounds in its window, but not in this block
    list.learnt(1, |_| {});
    list.make_by(WINDOW, Recipe64::noise(SOME, SOUND));
    list.block_of(SOME, LOW, SILENCE, 0.0);
    list.because(FAR_NOT_ACTIVE);
}

/// What changes powers after the reason is known: the guard, a rescue, and a shadow that is lost in the update.
fn not_by_the_state_left(list: &mut List) {
    // a film of 80 blocks, then powers that are alike: the guard leaves the output's at near's
    list.create(1, true);
    list.blocks_of(word_of(1), LOW, FULL, 0.5, 80);
    list.set(|s| {
        s.mic.paths.shadow_error_power = 0.1;
        s.mic.paths.output_error_power = 0.1;
        s.mic.guard.divergence_out_power = 65536.0;
    });
    list.block_of(word_of(2), LOW, FULL, 0.5);
    list.because(NO_ADVANTAGE);
    let left = list.state.mic.paths;
    assert!(1.0 - left.shadow_error_power / left.output_error_power > 0.99);
    // the guard with every other reason of a block that compares
    for (rescue, powers, reason) in [
        (7, [1e9, 1.0], RESCUED),
        (0, [1.0, -1e6], NO_OUTPUT_POWER),
        (0, [1.0, 1e6], MOVED),
    ] {
        list.learnt(1, |s| {
            s.mic.detector.dtd_baseline = 0.0;
            s.mic.paths.shadow_error_power = powers[0];
            s.mic.paths.output_error_power = powers[1];
            s.mic.paths.rescue_streak = rescue;
            s.mic.guard.divergence_out_power = 1e9;
        });
        list.block_of(SOME, LOW, SOUND, 0.5);
        list.because(reason);
    }
    // the update leaves the shadow's power at the output's
    list.learnt(1, |s| {
        s.far.far_energy_peak = 0.0;
        s.mic.detector.dtd_baseline = 0.0;
        s.mic.paths.output_error_power = 1e90;
    });
    list.block_of(SOME, HUGE, LOWER, 0.0);
    list.because(MOVED);
    let left = list.state.mic.paths;
    assert_eq!(left.shadow_error_power, left.output_error_power);
}
