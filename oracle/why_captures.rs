//! The captures that the programs `why` and `why_records` run on: pairs, and calls as records. Between them they reach every reason that a
//! block can have, which why.rs checks.

use crate::echo::{self, add_echo};
use crate::inputs::{noise8, word_of};
use crate::kinds::*;
use crate::recipe::sounds_of;
use crate::record::{self, FLUSH, MOST_PAYLOAD, OUTPUT, PAIRS, RESET};
use crate::{BLOCK, PAIR};

/// A large echo, late by less than a block. Then the far end louder, in a block's last samples: these go over in the half of the estimates
/// that the block drops, as its echo is still to come; and in the next block, while near is muted, so that both filters diverge. Near stays
/// muted, so that the output's power stays 0. At the end a part of a block, and three bytes of a pair that does not come.
pub fn pairs() -> Vec<u8> {
    let scenes = [
        (SILENCE, 2 * BLOCK),
        // 63 blocks before the detector is established, 5 before the quiet streak is long enough, and 8 that move
        (FULL, 76 * BLOCK - 50),
        (LOUD, 50 + BLOCK),
        (FULL, 4 * BLOCK + 100),
    ];
    let sounds = (1..).zip(scenes).flat_map(|(number, (far, count))| {
        let [_, far] = sounds_of(word_of(number), SILENCE, far, 0.0).samples(count);
        far
    });
    let far: Vec<f32> = sounds.collect();
    let (delay, muted) = (100, 78 * BLOCK);
    let mut near = vec![0.0; far.len()];
    for k in delay..muted {
        near[k] = 5e37 * far[k - delay];
    }
    let heard = echo::pairs(&near, &far);
    heard.into_iter().chain([1, 2, 3]).collect()
}

/// Calls of every kind, and then from a reset on an echo that is learnt, lost and found again.
pub fn records() -> Vec<u8> {
    let mut capture = Capture(Vec::new());
    calls(&mut capture);
    capture.put(RESET, &[]);
    // with a few pairs in front, a call begins and ends inside a block
    let spoilt = spoilt();
    let (few, others) = spoilt.split_at(PAIR * 10);
    capture.put(PAIRS, few);
    for part in others.chunks(MOST_PAYLOAD) {
        capture.put(PAIRS, part);
    }
    capture.0
}

struct Capture(Vec<u8>);

impl Capture {
    fn put(&mut self, kind: u32, payload: &[u8]) {
        let written = record::write(kind, payload, usize::MAX);
        assert_eq!(written.refusal, 0);
        self.0.extend(written.bytes);
    }
}

/// Records of several lengths, an empty one and one of a single pair; flushes and resets, also in a row, with pairs that wait and with
/// none; outputs of any bytes, which are passed over. The last resets stand between blocks of one reason, so that they alone end a stretch.
fn calls(capture: &mut Capture) {
    let [quiet, echo] = [(1, SILENCE, 0.0), (2, FULL, 0.5)].map(|(number, far, gain)| {
        let [near, far] = sounds_of(word_of(number), QUARTER, far, gain).samples(4 * BLOCK);
        echo::pairs(&near, &far)
    });
    let output = noise8(word_of(3), MOST_PAYLOAD);
    for (kind, payload) in [
        (PAIRS, &quiet[..PAIR * 300]),
        (OUTPUT, &output[..4 * BLOCK]),
        (PAIRS, &quiet[PAIR * 300..PAIR * 812]),
        (OUTPUT, &output),
        (PAIRS, &echo[..PAIR * 255]),
        (PAIRS, &[]),
        (PAIRS, &echo[PAIR * 255..PAIR * 767]),
        (FLUSH, &[]),
        (FLUSH, &[]),
        (PAIRS, &quiet[..PAIR * 255]),
        (FLUSH, &[]),
        (PAIRS, &quiet[..PAIR * 100]),
        (RESET, &[]),
        (RESET, &[]),
        (PAIRS, &echo[..PAIR * 512]),
        (PAIRS, &echo[PAIR * 512..PAIR * 513]),
        (FLUSH, &[]),
        (OUTPUT, &[]),
        (PAIRS, &echo[PAIR * 513..PAIR * 1_024]),
        (RESET, &[]),
        (PAIRS, &echo[..PAIR * 266]),
    ] {
        capture.put(kind, payload);
    }
}

/// The room's echo, learnt below a sound of the room until the moves get smaller; a loud block while far is silent, which spoils the
/// shadow; then the echo until the shadow is rescued and, being the output's copy, has no advantage. At the end pairs that no block takes.
fn spoilt() -> Vec<u8> {
    let scenes = [
        (QUARTER, FULL, 80 * BLOCK),
        (LOUD, SILENCE, BLOCK),
        (QUARTER, FULL, 17 * BLOCK + 10),
    ];
    let (mut near, mut far) = (Vec::new(), Vec::new());
    for (number, (near_kind, far_kind, count)) in (4..).zip(scenes) {
        let [x, y] = sounds_of(word_of(number), near_kind, far_kind, 0.0).samples(count);
        near.extend(x);
        far.extend(y);
    }
    add_echo(&mut near, &far);
    echo::pairs(&near, &far)
}
