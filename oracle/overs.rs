//! What went over in Tau's blocks (request K8), the port against the Rust, each of whose narrowings is counted (oracle/rust). The blocks
//! are run from stored states that are loud, one or two in a call, and then some more from where these left: weights of either filter about
//! the largest f32 or far above, steps and gains that no call leaves, near as loud as samples get. After each call is compared all that it
//! answers, what it delivers, and the buffers: bits, NaN equal to NaN.

mod aspeyruni;
#[allow(dead_code)] // the Rust's text, whole
mod canceller;
mod config;
mod error;
#[allow(dead_code)]
mod fft;
mod house_detector;
mod inputs;
mod kinds;
#[allow(dead_code)]
mod rust_tau;
mod taken;
mod tally;
mod tau_calls;
mod tau_lines;
mod tau_reference;

use aspeyruni::tau::{self, Answer, Lent, TauCanceller, BLOCK, NUMBERS};
use inputs::{bits, hash, hash32, Random, DIGITS, SIGN, SIZES};
use kinds::*;
use taken::{Taken, INVERSES};
use tally::Tally;
use tau_lines::*;
use tau_reference::sizes;

/// So many blocks, at least, have what went over in them compared, each the last of its call.
const BLOCKS: u64 = 120_000;

const PARTITIONS: [usize; 5] = [1, 1, 2, 3, 8];

/// Far, and its size: 2 to this power.
const FARS: [(Kind, i32); 5] = [(LOWER, -7), (SOUND, 0), (FULL, 0), (LOUD, 3), (LOUDER, 30)];

/// The largest f32, of either sign.
const LARGEST: Kind = [HUGE[0] | 0x7f_ffff, SILENCE[1]];

const NEARS: [Kind; 6] = [LOW, LOW, SILENCE, LARGE, HUGE, LARGEST];

#[derive(Clone)]
struct Side {
    state: TauCanceller,
    buffers: [Vec<f64>; 4],
    out: [f32; 2 * BLOCK],
}

impl Side {
    fn lent(&mut self) -> (Lent<'_>, &mut [f32]) {
        let buffers = self.buffers.each_mut();
        (buffers.map(|buffer| &mut buffer[..]), &mut self.out)
    }

    /// All that a call leaves and answers.
    fn all(&self, answer: &Answer) -> (Vec<u64>, u64) {
        let buffers = self.buffers.each_ref().map(|buffer| &buffer[..]);
        let mut numbers = fields(&answer.state, buffers);
        numbers.extend([
            hash(buffers[3]),
            answer.refusal.into(),
            answer.delivered as u64,
            answer.transfers,
            answer.divergence_resets,
            answer.double_talk.into(),
            answer.outcome.into(),
            answer.reason.into(),
            bits(answer.leak),
        ]);
        (numbers, hash32(&self.out))
    }
}

#[derive(Default)]
struct Tallies {
    /// All calls, with all but what went over; and those that ran a block, where nothing went over, where something did.
    calls: Tally,
    no_block: Tally,
    none: Tally,
    any: Tally,
    inverses: [Tally; INVERSES.len()],
    dropped: Tally,
    first_alone: Tally,
}

impl Tallies {
    fn of(&mut self, blocks: &[Taken], is_same: bool) {
        let Some(last) = blocks.last() else {
            return self.no_block.call(is_same);
        };
        let overs = last.all_overs();
        if overs == 0 {
            self.none.call(is_same);
            if blocks.iter().any(|taken| taken.all_overs() > 0) {
                self.first_alone.call(is_same);
            }
            return;
        }
        self.any.call(is_same);
        for inverse in last.over_in() {
            self.inverses[inverse as usize].call(is_same);
        }
        let dropped = INVERSES.iter().map(|i| last.dropped_in(*i));
        if dropped.sum::<u32>() == overs {
            self.dropped.call(is_same);
        }
    }

    fn blocks(&self) -> u64 {
        self.none.compared() + self.any.compared()
    }

    fn tell(&self) {
        self.calls.tell_calls("tau overs, all else");
        self.no_block.tell_calls("tau overs, no block");
        self.none.tell_calls("tau overs, a block with none");
        self.any.tell_calls("tau overs, a block with some");
        let names = ["step 2", "step 3", "the update", "the suppressor"];
        for (name, tally) in names.iter().zip(&self.inverses) {
            tally.tell_calls(&format!("tau overs, in {name}"));
        }
        self.dropped.tell_calls("tau overs, the dropped half alone");
        self.first_alone
            .tell_calls("tau overs, the first of two blocks alone");
    }
}

struct Both {
    random: Random,
    tallies: Tallies,
    port: Side,
    rust: Side,
}

fn main() {
    let side = Side {
        state: TauCanceller::zero(),
        buffers: Default::default(),
        out: [0.0; 2 * BLOCK],
    };
    let mut both = Both {
        random: Random(0x9e37_79b9_7f4a_7c15),
        tallies: Tallies::default(),
        port: side.clone(),
        rust: side,
    };
    while both.tallies.blocks() < BLOCKS {
        both.episode();
    }
    both.tallies.tell();
}

impl Both {
    /// A loud state, and calls from it.
    fn episode(&mut self) {
        let (far, size) = self.random.one_of(&FARS);
        self.loud(size);
        for _ in 0..1 + self.random.below(3) {
            let near = self.random.one_of(&NEARS);
            let pairs = self.random.one_of(&[BLOCK, BLOCK, BLOCK, 2 * BLOCK, 100]);
            let near = samples(self.random.seed(), near, pairs);
            let far = samples(self.random.seed(), far, pairs);
            self.process(&near, &far);
            if self.rust.state.carried > 0 {
                self.flush();
            }
        }
    }

    /// As after an echo that was learnt, but for what is to go over.
    fn loud(&mut self, far: i32) {
        let partitions = self.random.one_of(&PARTITIONS);
        let mut state = established(partitions);
        state.suppress = self.random.below(4) > 0;
        self.rust.buffers = sizes(partitions).map(|n| vec![0.0; n]);
        let about = self.random.one_of(&[0, 0, 0, 40, 880 - far]);
        match self.random.below(6) {
            0 => self.make(SHADOW, &mut state, 119 - far + about),
            1 => self.make(OUTPUT, &mut state, 119 - far + about),
            2 => {
                self.make(SHADOW, &mut state, 119 - far);
                self.make(OUTPUT, &mut state, 119 - far);
            }
            3 => {
                state.far.far_energy_peak = f64::MAX;
                let power = self.random.below(40) as i32;
                state.mic.detector.step_scale = 10f64.powi(power);
            }
            4 => {
                self.make(GAIN, &mut state, 0);
                self.window(&mut state);
            }
            _ => {
                self.make(SPECTRA, &mut state, far);
                self.make(SHADOW, &mut state, 115 - far);
                self.window(&mut state);
            }
        }
        self.rust.state = state;
        self.port.state = state;
        self.port.buffers.clone_from(&self.rust.buffers);
    }

    /// Numbers of 2 to this power and up to eight more, or one of them alone, or one all over.
    fn make(&mut self, array: u64, state: &mut TauCanceller, power: i32) {
        let size = (0x3ff + power) as u64 + self.random.below(9) as u64;
        let word = self.random.seed();
        let number = size.min(0x7fe) << 52 | self.random.word() & DIGITS;
        let noise = match self.random.below(4) {
            0 => [number, SIGN | SIZES | DIGITS],
            1 => [number, 0],
            2 => [0, 0],
            _ => [number, SIGN | DIGITS],
        };
        let place = self.random.below(NUMBERS) as u64;
        let recipe = Recipe64::noise(word, noise).with(place, number);
        recipe.make(array, state, self.rust.lent().0);
    }

    /// What the suppressor keeps of the block before.
    fn window(&mut self, state: &mut TauCanceller) {
        let kind = self.random.one_of(&[LOW, LARGE, HUGE, LARGEST]);
        let recipe = Recipe64::noise(self.random.seed(), kind);
        recipe.make(ERROR_WINDOW, state, [&mut [], &mut [], &mut [], &mut []]);
    }

    fn process(&mut self, near: &[f32], far: &[f32]) {
        let mut blocks = Vec::new();
        let state = self.rust.state;
        let (lent, out) = self.rust.lent();
        let watch = &mut |seen: tau_reference::Seen| blocks.push(seen.taken);
        let rust = tau_reference::process(&state, lent, near, far, out, watch);
        let state = self.port.state;
        let (lent, out) = self.port.lent();
        let port = tau::process(state, lent, near, far, out);
        self.compare(&port, &rust, &blocks);
    }

    fn flush(&mut self) {
        let mut blocks = Vec::new();
        let state = self.rust.state;
        let (lent, out) = self.rust.lent();
        let watch = &mut |seen: tau_reference::Seen| blocks.push(seen.taken);
        let rust = tau_reference::flush(&state, lent, out, watch);
        let state = self.port.state;
        let (lent, out) = self.port.lent();
        let port = tau::flush(state, lent, out);
        self.compare(&port, &rust, &blocks);
    }

    fn compare(&mut self, port: &Answer, rust: &Answer, blocks: &[Taken]) {
        let is_same = self.port.all(port) == self.rust.all(rust);
        self.tallies.calls.call(is_same);
        self.tallies.of(blocks, port.overs == rust.overs);
        (self.port.state, self.rust.state) = (port.state, rust.state);
    }
}
