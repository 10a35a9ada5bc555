//! Calls by the reason that they report for their last block (request K2): every one from creation and from a stored state, and none
//! where the call ran no block.

use crate::aspeyruni::tau::reason::*;
use crate::aspeyruni::tau::*;
use crate::inputs::word_of;
use crate::kinds::*;
use crate::recipe::{sounds_of, Recipe, Sounds};
use crate::tau_lines::*;
use crate::{learnt, ones, List};

pub fn all(list: &mut List) {
    first_move(list);
    no_block(list);
    last_of_several(list);
    lost_output(list);
    spoilt_shadow(list);
    in_order(list);
    by_powers(list);
    by_count(list);
    with_guard(list);
}

impl List {
    /// The last call has to report this reason, or the case is not what it is here for.
    pub fn because(&self, reason: u32) {
        assert_eq!(self.reason, reason);
    }

    /// So many blocks of pairs.
    fn hear(&mut self, word: u64, near: Kind, far: Kind, gain: f32, blocks: usize) {
        self.long(sounds_of(word_of(word), near, far, gain), blocks);
    }

    /// Created, as after an echo that was learnt, but for a change.
    fn changed(&mut self, change: impl Fn(&mut TauCanceller)) {
        self.create(1, true);
        self.set(|s| {
            learnt(s);
            change(s);
        });
    }
}

/// Block 63 with far sound is the last that is not established, 64 has a quiet streak of 1, and 69 is the first that may move. Then the
/// echo until the shadow removes no more of it than the output.
fn first_move(list: &mut List) {
    list.create(1, true);
    list.hear(1, LOW, SILENCE, 0.0, 1);
    list.because(FAR_NOT_ACTIVE);
    list.hear(2, LOW, FULL, 0.5, 63);
    list.because(NOT_ESTABLISHED);
    list.hear(3, LOW, FULL, 0.5, 1);
    list.because(QUIET_STREAK_SHORT);
    assert_eq!(list.state.mic.paths.quiet_streak, 1);
    list.hear(4, LOW, FULL, 0.5, 4);
    list.because(QUIET_STREAK_SHORT);
    list.hear(5, LOW, FULL, 0.5, 1);
    list.because(MOVED);
    list.hear(6, LOW, FULL, 0.5, 64);
    list.because(NO_ADVANTAGE);
}

/// After a block: calls of no pairs, of too few for a block and refused for each reason, an empty flush, and the engine reset. Then the
/// first block again.
fn no_block(list: &mut List) {
    list.pairs(ones(), 0);
    list.because(NO_BLOCK);
    list.flush();
    list.because(NO_BLOCK);
    for ([near, far], room) in [
        ([2, 1], 300),
        ([4_097, 4_097], 4_104),
        ([256, 256], 255),
        ([0, 0], 0),
        ([255, 255], 0),
        ([256, 255], 0),
    ] {
        list.process_any(ones(), [near, far], room);
        list.because(NO_BLOCK);
    }
    list.flush_in(254);
    list.because(NO_BLOCK);
    list.flush();
    list.because(FLUSH_BLOCK);
    list.flush();
    list.because(NO_BLOCK);
    list.lent[1] -= 1;
    list.process_any(ones(), [256, 256], 256);
    list.because(NO_BLOCK);
    list.lent[1] += 1;
    list.reset();
    list.hear(1, LOW, FULL, 0.5, 1);
    list.because(NOT_ESTABLISHED);
    // out of its range
    list.set(|s| s.mic.detector.dtd_blocks = 65);
    list.process_any(ones(), [256, 256], 256);
    list.because(NO_BLOCK);
}

/// One far sample that sounds, and silence all over else.
fn click(at: usize) -> Sounds {
    Sounds {
        near: Recipe::noise(word_of(1), LOW),
        far: Recipe::of(0.0).marked(at, 1.0),
        gain: 0.0,
    }
}

/// Two blocks in a call, of which far sounds in one; and a block that waited in the carry, with a silent one after it.
fn last_of_several(list: &mut List) {
    let quiet = |s: &mut TauCanceller| {
        learnt(s);
        s.far.far_energy_peak = 1.0;
        s.mic.detector.dtd_baseline = 0.0;
        s.mic.paths.output_error_power = 1e6;
    };
    for is_stored in [false, true] {
        let of_sound = [NOT_ESTABLISHED, MOVED][usize::from(is_stored)];
        for (at, pairs, reason) in [
            (10, 256, of_sound),
            (10, 512, FAR_NOT_ACTIVE),
            (10, 700, FAR_NOT_ACTIVE),
            (300, 512, of_sound),
            (600, 700, FAR_NOT_ACTIVE),
        ] {
            list.create(1, true);
            if is_stored {
                list.set(quiet);
            }
            list.pairs(click(at), pairs);
            list.because(reason);
        }
    }
    list.create(2, true);
    list.pairs(click(10), 255);
    list.because(NO_BLOCK);
    list.pairs(click(usize::MAX), 257);
    list.because(FAR_NOT_ACTIVE);
    // a rescue, and the block after it
    for (blocks, reason) in [(1, RESCUED), (2, NO_ADVANTAGE)] {
        list.changed(|s| {
            s.mic.paths.shadow_error_power = 1e9;
            s.mic.paths.rescue_streak = 7;
        });
        list.hear(1, SILENCE, SOUND, 0.0, blocks);
        list.because(reason);
    }
}

/// From creation an echo that is as large as samples get. Then the output diverges: in a flush, while far is not active, and while near is
/// muted and stays so, which leaves the powers at 0 and the streak as it was.
fn lost_output(list: &mut List) {
    let huge = 1.9 * 2f32.powi(126);
    for lose in [
        |list: &mut List| {
            list.pairs(sounds_of(word_of(2), SILENCE, LOUD, 0.0), 200);
            list.flush();
            list.because(FLUSH_BLOCK);
        },
        |list: &mut List| {
            let mut sounds = sounds_of(word_of(3), HUGE, LOWER, 0.0);
            sounds.near = Recipe::of(f32::MAX);
            list.pairs(sounds, BLOCK);
            list.because(OUTPUT_DIVERGED);
        },
        |list: &mut List| {
            list.hear(4, SILENCE, LOUD, 0.0, 1);
            list.because(OUTPUT_DIVERGED);
            list.hear(5, SILENCE, FULL, 0.0, 2);
            list.because(NO_OUTPUT_POWER);
        },
    ] {
        list.create(1, true);
        list.hear(1, SILENCE, FULL, huge, 96);
        let resets = list.state.mic.divergence_resets;
        lose(list);
        assert!(resets < list.state.mic.divergence_resets);
    }
}

/// From creation an echo that is learnt; the shadow spoilt in a pause of the film, and rescued after 8 blocks of the echo, none of which
/// was quiet.
fn spoilt_shadow(list: &mut List) {
    list.create(2, true);
    list.hear(1, SILENCE, SOUND, 0.5, 112);
    list.hear(2, LOUD, SILENCE, 0.0, 1);
    list.because(FAR_NOT_ACTIVE);
    list.hear(3, SILENCE, SOUND, 0.5, 7);
    list.because(QUIET_STREAK_SHORT);
    list.hear(4, SILENCE, SOUND, 0.5, 1);
    list.because(RESCUED);
    assert_eq!(list.state.mic.paths.quiet_streak, 0);
}

/// Stored states where all later reasons hold too.
fn in_order(list: &mut List) {
    let all = |s: &mut TauCanceller| {
        s.mic.detector.dtd_blocks = 10;
        s.mic.paths = Paths {
            shadow_error_power: 1e9,
            output_error_power: -1.0,
            quiet_streak: 0,
            rescue_streak: 7,
        };
    };
    list.changed(all);
    list.make(OUTPUT, INFINITE64);
    list.pairs(sounds_of(1, LOW, SILENCE, 0.0), 9);
    list.flush();
    list.because(FLUSH_BLOCK);
    list.changed(all);
    list.make(OUTPUT, INFINITE64);
    list.hear(1, LOW, SILENCE, 0.0, 1);
    list.because(OUTPUT_DIVERGED);
    list.changed(all);
    list.hear(1, LOW, SILENCE, 0.0, 1);
    list.because(FAR_NOT_ACTIVE);
    list.changed(all);
    list.hear(1, SILENCE, SOUND, 0.0, 1);
    list.because(NOT_ESTABLISHED);
    list.changed(|s| {
        all(s);
        s.mic.detector.dtd_blocks = 64;
    });
    list.hear(1, SILENCE, SOUND, 0.0, 1);
    list.because(RESCUED);
}

/// By the quiet streak before the block, and the stored powers of the shadow and of the output. Near is muted and the weights are 0, so
/// that a block brings no energy.
fn by_powers(list: &mut List) {
    let (infinite, nan) = (f64::INFINITY, f64::NAN);
    for (streak, shadow, output, reason) in [
        (4, nan, nan, QUIET_STREAK_SHORT),
        (4, 1.0, 0.0, QUIET_STREAK_SHORT),
        (9, 1.0, nan, NO_OUTPUT_POWER),
        (9, nan, nan, NO_OUTPUT_POWER),
        (5, 0.0, 0.0, NO_OUTPUT_POWER),
        (5, -1.0, -1.0, NO_OUTPUT_POWER),
        (5, infinite, infinite, NO_ADVANTAGE),
        (5, nan, 1.0, NO_ADVANTAGE),
        (5, infinite, 1.0, NO_ADVANTAGE),
        (5, 1.0, infinite, MOVED),
        (5, 0.75, 1.0, MOVED),
    ] {
        list.changed(|s| {
            s.mic.paths.quiet_streak = streak;
            s.mic.paths.shadow_error_power = shadow;
            s.mic.paths.output_error_power = output;
        });
        list.hear(1, SILENCE, SOUND, 0.0, 1);
        list.because(reason);
    }
}

/// Established or not is by the count that the block leaves, which a muted one does not raise.
fn by_count(list: &mut List) {
    for (count, near, reason) in [
        (62, LOW, NOT_ESTABLISHED),
        (63, LOW, QUIET_STREAK_SHORT),
        (63, SILENCE, NOT_ESTABLISHED),
    ] {
        list.changed(|s| {
            s.mic.detector.dtd_blocks = count;
            s.mic.paths.quiet_streak = 0;
        });
        list.hear(1, near, SOUND, 0.0, 1);
        list.because(reason);
    }
}

/// A film of 80 blocks, then powers that are alike. The guard leaves the output's at near's, so the state that is left tells another
/// reason.
fn with_guard(list: &mut List) {
    list.create(1, true);
    list.hear(1, LOW, FULL, 0.5, 80);
    list.set(|s| {
        s.mic.paths.shadow_error_power = 0.1;
        s.mic.paths.output_error_power = 0.1;
        s.mic.guard.divergence_out_power = 65536.0;
    });
    list.hear(2, LOW, FULL, 0.5, 1);
    list.because(NO_ADVANTAGE);
    let left = list.state.mic.paths;
    assert!(1.0 - left.shadow_error_power / left.output_error_power > 0.99);
}
