//! Tau, the port against the Rust as document 01 completes it, call by call. After each call are compared: what it answers, with the
//! state and the report, the four lent buffers and the output buffer, these five with some room beyond what was lent. Bits are compared,
//! NaN equal to NaN. The Rust's own calls on one engine run beside the reference's, and must come to the same.
//!
//! A stream is a run of episodes of one number of partitions, each from a creation on: sound of several kinds, cut into calls of any
//! length, and between calls now and then a flush, a reset, a call that is to be refused, and a state that no call left, which is called
//! foreign. From there on the episode counts as foreign.
//!
//! The Rust's rule is its own as long as each kept power is the one worked out from its bin (request K10), and the port's powers are
//! compared with those of the Rust's spectra. Now and then some are made false; until they are gone the Rust's side sums what is kept.
//!
//! A call reports the reason of its last block alone (request K2). So there are streams besides in which nearly every call runs one block.
//!
//! To standard error goes a table of the branches that the blocks took.

mod aspeyruni;
mod branches;
#[allow(dead_code)] // the Rust's text, whole
mod canceller;
mod config;
mod error;
#[allow(dead_code)]
mod fft;
mod house_detector;
mod inputs;
mod kinds;
#[allow(dead_code)]
mod rust_tau;
mod taken;
mod tally;
mod tau_calls;
mod tau_lines;
mod tau_reference;

use aspeyruni::tau::{self, Answer, TauCanceller, BINS, BLOCK, NUMBERS};
use branches::Counts;
use inputs::{bits, bits32, Noise, Random};
use kinds::*;
use tally::Tally;
use tau_calls::REASONS;
use tau_lines::*;
use tau_reference::{are_true, sizes, Continued, Seen, MOST_PAIRS, MOST_PARTITIONS};

/// Partitions and how many blocks, at least, with suppression and as many without.
const STREAMS: [(usize, u32); 7] = [
    (1, 2_400),
    (2, 2_400),
    (3, 2_000),
    (4, 1_800),
    (8, 1_600),
    (13, 1_500),
    (32, 1_000),
];

/// The same of streams in calls of one block.
const STREAMS_BY_BLOCKS: [(usize, u32); 2] = [(1, 30_000), (2, 30_000)];

/// So many blocks, at least, have their reasons compared, each reported by a call of its own.
const REASONS_COMPARED: u64 = 100_000;

/// So often powers are made false, for each number of partitions with suppression and without, besides what streams have of it.
const FALSE_POWERS: usize = 40;

/// So many creations besides, most of them refused.
const CREATIONS: usize = 3_000;

/// Beyond what is lent of a buffer.
const ROOM: usize = 8;

/// What is set in a foreign state.
const KINDS: [Kind; 8] = [SILENCE, SOUND, FULL, FAINT, SUBNORMAL, LARGE, INFINITE, NAN];
const KINDS64: [Kind; 6] = [SOUND64, POWER64, LARGE64, SUBNORMAL64, INFINITE64, NAN64];
const ODD: [f64; 14] = [
    0.0,
    -0.0,
    0.03,
    0.2,
    0.5,
    1.0,
    -1.0,
    1e3,
    1e300,
    f64::MAX,
    f64::from_bits(1),
    f64::INFINITY,
    f64::NEG_INFINITY,
    f64::NAN,
];

/// 0.5 and 1.0 all over, and the largest f32, of either sign.
const HALF: Kind = [0x7e << 23, 0];
const ONE: Kind = [0x7f << 23, 0];
const LARGEST: Kind = [HUGE[0] | 0x7f_ffff, SILENCE[1]];

/// What is heard for a while: near and far, each of its kind, and the gain of far's echo in near. No gain where it is +0.0.
#[derive(Clone, Copy)]
struct Scene {
    near: Kind,
    far: Kind,
    gain: f32,
}

const fn scene(near: Kind, far: Kind, gain: f32) -> Scene {
    Scene { near, far, gain }
}

/// An echo to learn.
const ECHOES: [Scene; 5] = [
    scene(QUARTER, FULL, 0.5),
    scene(LOW, FULL, 0.5),
    scene(LOWER, FULL, -0.5),
    scene(FAINT, SOUND, 0.5),
    scene(SILENCE, SOUND, 0.5),
];

/// What may come after: talk over the echo and alone, the echo turned and louder, far silent or faint, and samples that spoil all.
const SCENES: [Scene; 18] = [
    scene(LOUD, SOUND, 0.5),
    scene(LOUD, FULL, 0.5),
    scene(SOUND, SOUND, 0.0),
    scene(SILENCE, SOUND, 0.0),
    scene(LOW, FULL, -2.0),
    scene(LOW, FULL, -2.0),
    scene(LOUD, SILENCE, 0.0),
    scene(LOW, FAINT, -2.0),
    scene(SILENCE, SILENCE, 0.0),
    scene(QUARTER, FULL, 0.5),
    scene(LOW, SOUND, 0.5),
    scene(SUBNORMAL, SUBNORMAL, 0.0),
    scene(SILENCE, FULL, -1.6e38),
    scene(HUGE, LOWER, 0.0),
    scene(LARGE, HUGE, 0.0),
    scene(QUARTER, NAN, 0.0),
    scene(INFINITE, FULL, 0.5),
    scene(ANY, ANY, 0.0),
];

/// A call, and what it is given besides the state and the buffers.
enum Call {
    Create(usize, bool),
    Process(Vec<f32>, Vec<f32>),
    Flush,
    Reset,
}

/// One side's state and buffers, which are longer than what is lent of them.
#[derive(Clone)]
struct Side {
    state: TauCanceller,
    buffers: [Vec<f64>; 4],
    out: Vec<f32>,
}

/// How much is lent of each buffer.
#[derive(Clone, Copy)]
struct Lent {
    numbers: [usize; 4],
    out: usize,
}

impl Side {
    fn lent(&mut self, lent: Lent) -> (tau::Lent<'_>, &mut [f32]) {
        let buffers = lend(&mut self.buffers, lent.numbers);
        (buffers, &mut self.out[..lent.out])
    }

    /// The spectra of so many partitions, and their powers.
    fn kept(&self, partitions: usize) -> [&[f64]; 2] {
        let [_, _, spectra, powers] = &self.buffers;
        [
            &spectra[..NUMBERS * partitions],
            &powers[..BINS * partitions],
        ]
    }

    fn has_true_powers(&self, partitions: usize) -> bool {
        let [spectra, powers] = self.kept(partitions);
        are_true(spectra, powers)
    }

    fn port(&mut self, call: &Call, lent: Lent) -> Answer {
        let state = self.state;
        let (buffers, out) = self.lent(lent);
        let answer = match call {
            Call::Create(partitions, suppress) => {
                tau::create(*partitions, *suppress, buffers).whole()
            }
            Call::Process(near, far) => tau::process(state, buffers, near, far, out),
            Call::Flush => tau::flush(state, buffers, out),
            Call::Reset => tau::reset(state, buffers).whole(),
        };
        self.state = answer.state;
        answer
    }

    fn rust(&mut self, call: &Call, lent: Lent, watch: &mut dyn FnMut(Seen)) -> Answer {
        let state = self.state;
        let (buffers, out) = self.lent(lent);
        let answer = match call {
            Call::Create(partitions, suppress) => {
                tau_reference::create(*partitions, *suppress, buffers).whole()
            }
            Call::Process(near, far) => {
                tau_reference::process(&state, buffers, near, far, out, watch)
            }
            Call::Flush => tau_reference::flush(&state, buffers, out, watch),
            Call::Reset => tau_reference::reset(&state, buffers).whole(),
        };
        self.state = answer.state;
        answer
    }
}

/// All that is in an answer but for the state's arrays. Three numbers stand whole, of which a line has 32 bits.
fn numbers(answer: &Answer) -> Vec<u64> {
    let s = &answer.state;
    let mut numbers = vec![
        answer.refusal.into(),
        answer.delivered as u64,
        answer.transfers,
        answer.divergence_resets,
        answer.double_talk.into(),
        answer.outcome.into(),
        answer.reason.into(),
        answer.overs.into(),
        bits(answer.leak),
        s.partitions as u64,
        s.carried as u64,
        s.far.head as u64,
    ];
    numbers.extend(scalars(s));
    numbers
}

/// The state's arrays.
fn arrays(s: &TauCanceller) -> Vec<u64> {
    let q = &s.mic.suppressor;
    let samples = [
        &s.near_carry[..],
        &s.far_carry,
        &s.far.window,
        &q.error_window,
    ];
    let powers = [
        &s.mic.far_power_mean[..],
        &q.echo_power,
        &q.error_power,
        &q.gain,
    ];
    let samples = samples.iter().copied().flatten();
    let powers = powers.iter().copied().flatten();
    samples
        .map(|x| bits32(*x).into())
        .chain(powers.map(|x| bits(*x)))
        .collect()
}

#[derive(Default)]
struct Tallies {
    create: Tally,
    /// On a state that calls made, on a foreign one, and on one with false powers.
    process: [Tally; 3],
    flush: [Tally; 3],
    reset: Tally,
    answers: [Tally; 7],
    /// The powers have a wrong length, and all else is right.
    powers_alone: Tally,
    outcomes: [Tally; 4],
    reasons: [Tally; REASONS.len()],
    /// What went over in the last block: nothing, something.
    overs: [Tally; 2],
    samples: [Tally; STREAMS.len()],
    beyond: Tally,
    buffers: [Tally; 4],
    /// The port's powers, against those worked out from its own spectra.
    squares: Tally,
    /// A call that false powers end in.
    true_again: Tally,
    own: Tally,
}

impl Tallies {
    fn tell(&self) {
        self.create.tell_calls("tau create");
        for (name, tallies) in [("process", &self.process), ("flush", &self.flush)] {
            tallies[0].tell_calls(&format!("tau {name}"));
            tallies[1].tell_calls(&format!("tau {name}, foreign state"));
            tallies[2].tell_calls(&format!("tau {name}, false powers"));
        }
        self.true_again
            .tell_calls("tau false powers, gone after the call");
        self.reset.tell_calls("tau reset");
        for (number, tally) in self.answers.iter().enumerate() {
            tally.tell_calls(&format!("tau answer {number}"));
        }
        self.powers_alone
            .tell_calls("tau answer 2, the powers' length alone");
        let outcomes = ["no block", "no move", "rescue", "move"];
        for (name, tally) in outcomes.iter().zip(&self.outcomes) {
            tally.tell_calls(&format!("tau report, {name}"));
        }
        self.tell_reasons();
        for (name, tally) in ["none", "some"].iter().zip(&self.overs) {
            tally.tell_calls(&format!("tau report, {name} over"));
        }
        for ((partitions, _), tally) in STREAMS.iter().zip(&self.samples) {
            tally.tell(&format!("tau samples, P = {partitions}"));
        }
        self.beyond.tell("tau output buffer beyond the samples");
        let names = ["shadow weights", "output weights", "far spectra", "powers"];
        for (name, tally) in names.iter().zip(&self.buffers) {
            tally.tell(&format!("tau {name}"));
        }
        self.squares
            .tell("tau powers, against the squares of the port's spectra");
        self.own
            .tell_calls("tau reference, against the Rust's own calls");
    }

    /// Each reason has a line, so that one which never came fails.
    fn tell_reasons(&self) {
        for (number, (name, tally)) in REASONS.iter().zip(&self.reasons).enumerate() {
            tally.tell_calls(&format!("tau reason {number}, {name}"));
        }
        let of_blocks = self.reasons[1..].iter().map(Tally::compared).sum::<u64>();
        if of_blocks < REASONS_COMPARED {
            println!("tau reasons: of {of_blocks} blocks alone, not of {REASONS_COMPARED}");
        }
    }
}

/// Both sides of a stream, and what has been compared.
struct Both {
    random: Random,
    tallies: Tallies,
    counts: Counts,
    port: Side,
    rust: Side,
    own: Continued,
    partitions: usize,
    suppress: bool,
    /// Whether sound comes in calls of one block, and not of any length.
    is_by_blocks: bool,
}

fn main() {
    let side = Side {
        state: TauCanceller::zero(),
        buffers: Default::default(),
        out: Vec::new(),
    };
    let mut both = Both {
        random: Random(0x9e37_79b9_7f4a_7c15),
        tallies: Tallies::default(),
        counts: Counts::none(),
        port: side.clone(),
        rust: side,
        own: Continued::created(1, false),
        partitions: 1,
        suppress: false,
        is_by_blocks: false,
    };
    for _ in 0..CREATIONS {
        both.creation();
    }
    both.streams(&STREAMS);
    for (partitions, _) in STREAMS {
        for suppress in [true, false] {
            both.falsified(partitions, suppress);
        }
    }
    both.is_by_blocks = true;
    both.streams(&STREAMS_BY_BLOCKS);
    for partitions in [1, 2, 1, 2, 1, 2] {
        both.behind_suppressor(partitions);
    }
    both.tallies.tell();
    both.counts.tell();
    eprintln!("{} blocks", both.counts.blocks());
    if both.counts.missing() > 0 {
        println!("tau branches: {} not taken", both.counts.missing());
    }
}

impl Both {
    fn noise(&mut self, [base, mask]: Kind, count: usize) -> Vec<f64> {
        let word = self.random.seed();
        let mut noise = Noise { word, base, mask };
        (0..count).map(|_| noise.number()).collect()
    }

    fn samples(&mut self, kind: Kind, count: usize) -> Vec<f32> {
        samples(self.random.seed(), kind, count)
    }

    /// New buffers for so many partitions, with noise in them, that of the powers as long as the others.
    fn buffers(&mut self, partitions: usize) {
        self.partitions = partitions;
        let count = NUMBERS * partitions + ROOM;
        self.port = Side {
            state: TauCanceller::zero(),
            buffers: [0; 4].map(|_| self.noise(SOUND64, count)),
            out: Vec::new(),
        };
        self.rust = self.port.clone();
    }

    /// One with any settings, over buffers of the length that they ask for, or of another.
    fn creation(&mut self) {
        let any = self.random.below(40);
        let partitions = self.random.one_of(&[0, 1, 2, 32, 33, usize::MAX, any, any]);
        self.suppress = self.random.below(2) > 0;
        self.buffers(partitions.clamp(1, MOST_PARTITIONS + 1));
        let lent = self.wrongly_lent();
        self.call(&Call::Create(partitions, self.suppress), lent);
    }

    fn rightly_lent(&self) -> Lent {
        Lent {
            numbers: sizes(self.partitions),
            out: MOST_PAIRS + ROOM,
        }
    }

    /// Or rightly, for half of the time.
    fn wrongly_lent(&mut self) -> Lent {
        let mut lent = self.rightly_lent();
        let right = lent.numbers[0];
        let some = [0, right - 1, right + 1, right - NUMBERS, right + ROOM];
        let wrong = self.random.one_of(&some);
        match self.random.below(10) {
            0 => lent.numbers = [wrong; 4],
            which @ 1..=3 => lent.numbers[which - 1] = wrong,
            4 => lent.numbers[3] = self.wrong_powers(lent.numbers[3]),
            _ => {}
        }
        lent
    }

    /// None, one short, one long, a slot short, as many as of spectra, and as many as there are samples.
    fn wrong_powers(&mut self, right: usize) -> usize {
        let samples = BLOCK * self.partitions;
        let some = [0, right - 1, right + 1, right - BINS, 2 * right, samples];
        self.random.one_of(&some)
    }

    /// With suppression and without.
    fn streams(&mut self, streams: &[(usize, u32)]) {
        for (partitions, blocks) in streams {
            for suppress in [true, false] {
                self.stream(*partitions, suppress, *blocks);
            }
        }
    }

    /// Episodes, until there are so many blocks more.
    fn stream(&mut self, partitions: usize, suppress: bool, blocks: u32) {
        self.suppress = suppress;
        self.buffers(partitions);
        let end = self.counts.blocks() + blocks;
        while self.counts.blocks() < end {
            self.call(&Call::Create(partitions, suppress), self.rightly_lent());
            if self.is_by_blocks && self.random.below(8) == 0 {
                self.powerless();
            } else {
                self.begin();
            }
            for _ in 0..self.random.below(6) {
                self.go_on();
            }
        }
    }

    fn begin(&mut self) {
        match self.random.below(9) {
            0 => self.silence(),
            1 => self.spoilt(),
            2 => self.foreign(),
            3 => self.overflow(),
            4 => self.muted(),
            _ => {
                let blocks = 66 + self.random.below(30);
                let echo = self.random.one_of(&ECHOES);
                self.hear(echo, blocks);
            }
        }
    }

    fn go_on(&mut self) {
        let scene = self.random.one_of(&SCENES);
        let blocks = 1 + self.random.below(12);
        self.hear(scene, blocks);
        match self.random.below(16) {
            0 => self.call(&Call::Reset, self.rightly_lent()),
            1..4 => {
                for _ in 0..1 + self.random.below(4) {
                    self.foreign();
                    let echo = self.random.one_of(&ECHOES);
                    let blocks = 1 + self.random.below(4);
                    self.hear(echo, blocks);
                }
            }
            4..6 => {
                for _ in 0..1 + self.random.below(3) {
                    self.hear_falsely();
                }
            }
            _ => {}
        }
    }

    /// From an echo on, false powers again and again.
    fn falsified(&mut self, partitions: usize, suppress: bool) {
        self.suppress = suppress;
        self.buffers(partitions);
        self.call(&Call::Create(partitions, suppress), self.rightly_lent());
        self.hear(ECHOES[0], 70);
        for _ in 0..FALSE_POWERS {
            self.hear_falsely();
        }
    }

    /// An echo over false powers, for fewer blocks than they last, or for more.
    fn hear_falsely(&mut self) {
        self.false_powers();
        let echo = self.random.one_of(&ECHOES);
        let blocks = 1 + self.random.below(self.partitions + 2);
        self.hear(echo, blocks);
    }

    /// An echo as large as samples get; the far end louder while near is muted, so that both filters diverge; and near muted on, so that
    /// the output's power stays 0.
    fn powerless(&mut self) {
        self.hear(scene(SILENCE, FULL, 1.6e38), 84);
        self.plain(scene(SILENCE, LOUD, 0.0), BLOCK);
        self.hear(scene(SILENCE, FULL, 0.0), 4);
    }

    /// An echo of film that is one number all over, so that the suppressor takes off there alone, and near as loud as samples get, which
    /// goes over behind it. And behind gains that no call leaves.
    fn behind_suppressor(&mut self, partitions: usize) {
        self.suppress = true;
        self.buffers(partitions);
        self.call(&Call::Create(partitions, true), self.rightly_lent());
        self.plain(scene(HALF, ONE, 0.0), 100 * BLOCK);
        self.plain(scene(LARGEST, ONE, 0.0), BLOCK);
        self.plain(scene(HALF, ONE, 0.0), BLOCK);
        let mut state = self.rust.state;
        state.mic.suppressor.gain.fill(8.0);
        self.set(state);
        self.own_from_here();
        self.plain(scene(HUGE, ONE, 0.0), BLOCK);
    }

    /// Joining muted, for longer than would establish the detector, and the echo after it.
    fn muted(&mut self) {
        self.hear(scene(SILENCE, FULL, 0.0), 70);
        self.hear(scene(LOW, FULL, 0.5), 75);
    }

    /// Sound in the room alone, and the first far sound after it.
    fn silence(&mut self) {
        self.hear(scene(SOUND, SILENCE, 0.0), 3);
        self.hear(scene(SOUND, FULL, 0.5), 2);
    }

    /// An echo without noise, learnt well; a loud block while far is silent, which spoils the shadow; then the echo again.
    fn spoilt(&mut self) {
        let loud = 1.6e38 * self.random.one_of(&[0.0, 1.0]);
        let echo = scene(SILENCE, SOUND, 0.5);
        self.hear(echo, 100);
        self.plain(scene(LOUD, SILENCE, 0.0), BLOCK);
        self.plain(echo, 12 * BLOCK);
        self.plain(scene(SILENCE, FULL, loud), 4 * BLOCK);
        self.plain(scene(SILENCE, FULL, -loud), 2 * BLOCK);
    }

    /// Steps that no f32 holds, and a flush amid them.
    fn overflow(&mut self) {
        self.plain(scene(HUGE, LOWER, 0.0), 2 * BLOCK + 60);
        self.call(&Call::Flush, self.rightly_lent());
        self.plain(scene(HUGE, HUGE, 0.0), 3 * BLOCK + 60);
        self.call(&Call::Flush, self.rightly_lent());
        self.plain(scene(LOW, SOUND, 0.5), 2 * BLOCK);
    }

    /// So many pairs, in one call or in one for each block.
    fn plain(&mut self, scene: Scene, count: usize) {
        let most = if self.is_by_blocks { BLOCK } else { count };
        let mut left = count;
        while left > 0 {
            let call = self.pairs(scene, left.min(most));
            self.call(&call, self.rightly_lent());
            left -= left.min(most);
        }
    }

    /// So many blocks of pairs in calls, with other calls between.
    fn hear(&mut self, scene: Scene, blocks: usize) {
        let mut left = blocks * BLOCK;
        while left > 0 {
            let count = self.cut().min(left);
            let call = self.pairs(scene, count);
            self.call(&call, self.rightly_lent());
            left -= count;
            match self.random.below(48) {
                0 => self.call(&Call::Flush, self.rightly_lent()),
                1 => {
                    self.call(&Call::Flush, self.rightly_lent());
                    self.call(&Call::Flush, self.rightly_lent());
                }
                2..8 => self.wrong(),
                _ => {}
            }
        }
    }

    /// How many pairs a call has.
    fn cut(&mut self) -> usize {
        if self.is_by_blocks {
            return BLOCK;
        }
        let most = self
            .random
            .one_of(&[1, 256, 600, 2_000, MOST_PAIRS, MOST_PAIRS]);
        let any = self.random.below(most + 1);
        self.random.one_of(&[any, any, most, 255])
    }

    /// Of these, one call in eight has samples that are not finite strewn in.
    fn pairs(&mut self, scene: Scene, count: usize) -> Call {
        let far = self.samples(scene.far, count);
        let mut near = self.samples(scene.near, count);
        if scene.gain.to_bits() != 0 {
            for (x, y) in near.iter_mut().zip(&far) {
                *x += scene.gain * y;
            }
        }
        let mut far = far;
        if self.random.below(8) == 0 {
            self.random.strew(near.iter_mut().chain(&mut far), 64);
        }
        Call::Process(near, far)
    }

    /// A call in which one thing is wrong, or several are, or none. A state that was wrong is put right after.
    fn wrong(&mut self) {
        let before = self.rust.state;
        let is_state_wrong = self.random.below(3) == 0;
        if is_state_wrong {
            let which = self.random.below(11);
            self.set(out_of_range(before, which));
        }
        let mut lent = self.wrongly_lent();
        let call = match self.random.below(5) {
            0 => {
                let carried = before.carried;
                let most = [carried, carried.max(1) - 1, 0, lent.out];
                lent.out = self.random.one_of(&most);
                Call::Flush
            }
            1 if is_state_wrong || lent.numbers != self.rightly_lent().numbers => Call::Reset,
            _ => {
                let near = self.random.one_of(&[0, 1, 100, 256, 4_096, 4_097, 5_000]);
                let far = self.random.one_of(&[near, near, near, near + 1, 4_097]);
                let delivers = (before.carried + near) / BLOCK * BLOCK;
                let out = self
                    .random
                    .one_of(&[lent.out, delivers.max(1) - 1, delivers, 0]);
                lent.out = out.min(lent.out);
                Call::Process(self.samples(FULL, near), self.samples(FULL, far))
            }
        };
        self.call(&call, lent);
        if is_state_wrong {
            self.set(before);
        }
    }

    /// The state, on both sides. What the Rust's own engine has stays.
    fn set(&mut self, state: TauCanceller) {
        (self.port.state, self.rust.state) = (state, state);
    }

    /// Any state in range, and any buffers; or one as after an echo that was learnt, with a part of it foreign.
    fn foreign(&mut self) {
        let mut s = self.rust.state;
        let is_wild = self.random.below(3) == 0;
        if self.random.below(2) == 0 {
            s = TauCanceller {
                suppress: self.suppress,
                ..established(self.partitions)
            };
        }
        self.foreign_numbers(&mut s, if is_wild { 2 } else { 8 });
        for _ in 0..self.random.below(3) {
            self.foreign_samples(&mut s);
        }
        self.set(s);
        for buffer in 0..3 {
            let odds = if is_wild { 2 } else { 5 };
            if self.random.below(odds) == 0 {
                let kind = self.random.one_of(&KINDS64);
                let numbers = self.noise(kind, NUMBERS * self.partitions + ROOM);
                self.port.buffers[buffer].clone_from(&numbers);
                self.rust.buffers[buffer] = numbers;
            }
        }
        // the powers of what is stored now
        for Side { buffers, .. } in [&mut self.port, &mut self.rust] {
            let [_, _, spectra, powers] = lend(buffers, sizes(self.partitions));
            work_out(spectra, powers);
        }
        if self.random.below(if is_wild { 2 } else { 8 }) == 0 {
            self.false_powers();
        }
        self.own_from_here();
    }

    /// Powers that no call leaves: all over, of one slot, or one alone; the others stay. Half of the time the means are others besides, all
    /// above 0.
    fn false_powers(&mut self) {
        let kind = self.random.one_of(&FALSE64);
        let slot = BINS * self.random.below(self.partitions);
        let place = slot + self.random.below(BINS);
        let [from, to] = self.random.one_of(&[
            [0, BINS * self.partitions],
            [0, BINS * self.partitions],
            [slot, slot + BINS],
            [place, place + 1],
        ]);
        let numbers = self.noise(kind, to - from);
        for Side { buffers, .. } in [&mut self.port, &mut self.rust] {
            buffers[3][from..to].copy_from_slice(&numbers);
        }
        if self.random.below(2) == 0 {
            let mut s = self.rust.state;
            let means = self.noise(POWER64, BINS);
            s.mic.far_power_mean.copy_from_slice(&means);
            self.set(s);
        }
        self.own_from_here();
    }

    /// The Rust's own engine from a state that was set, and from buffers.
    fn own_from_here(&mut self) {
        self.counts.is_foreign = true;
        let lent = self.rightly_lent();
        self.rust.out.resize(lent.out, 0.0);
        let state = self.rust.state;
        let (buffers, _) = self.rust.lent(lent);
        self.own = Continued::from(&state, buffers);
    }

    /// One in so many of the numbers that are in no array.
    fn foreign_numbers(&mut self, s: &mut TauCanceller, odds: usize) {
        let random = &mut self.random;
        let mut is_chosen = || random.below(odds) == 0;
        let chosen: Vec<bool> = (0..21).map(|_| is_chosen()).collect();
        let random = &mut self.random;
        if chosen[0] {
            s.far.head = random.below(s.partitions);
            s.carried = random.one_of(&[0, 1, 100, 254, 255]);
        }
        for (flag, is_chosen) in flags(s).into_iter().zip(&chosen[1..]) {
            if *is_chosen {
                *flag = random.below(2) > 0;
            }
        }
        let m = &mut s.mic;
        if chosen[5] {
            m.detector.dtd_blocks = random.one_of(&[0, 62, 63, 64]);
            m.paths.rescue_streak = random.one_of(&[0, 1, 6, 7]);
        }
        if chosen[6] {
            m.paths.quiet_streak = random.one_of(&[0, 4, 5, 6, u32::MAX - 1, u32::MAX]);
        }
        if chosen[7] {
            m.transfers = random.one_of(&[0, 1, u64::MAX - 1, u64::MAX]);
        }
        if chosen[8] {
            m.divergence_resets = random.one_of(&[0, 1, u64::MAX - 1, u64::MAX]);
        }
        for (number, is_chosen) in floats(s).into_iter().zip(&chosen[9..]) {
            if *is_chosen {
                *number = random.one_of(&ODD);
            }
        }
    }

    /// One of the state's arrays. Of a carry something waits.
    fn foreign_samples(&mut self, s: &mut TauCanceller) {
        let any = self.random.below(8) as u64;
        let array = self.random.one_of(&[NEAR_CARRY, FAR_CARRY, any, any]);
        if array <= FAR_CARRY {
            s.carried = self.random.one_of(&[1, 100, 254, 255]);
        }
        let kind = match array {
            NEAR_CARRY | FAR_CARRY | WINDOW | ERROR_WINDOW => self.random.one_of(&KINDS),
            _ => self.random.one_of(&KINDS64),
        };
        let recipe = Recipe64::noise(self.random.seed(), kind);
        recipe.make(array, s, [&mut [], &mut [], &mut [], &mut []]);
    }

    /// The call on both sides, with all that is to be compared after it.
    fn call(&mut self, call: &Call, lent: Lent) {
        if let Call::Create(..) = call {
            self.counts.is_foreign = false;
            self.counts.has_diverged = false;
        }
        self.port.out = self.samples(FULL, MOST_PAIRS + 2 * ROOM);
        self.rust.out.clone_from(&self.port.out);
        let was_true = self.rust.has_true_powers(self.partitions);
        let counts = &mut self.counts;
        let rust = self.rust.rust(call, lent, &mut |seen| counts.see(seen));
        let port = self.port.port(call, lent);
        let is_same = self.compare_buffers(rust.delivered)
            & (numbers(&port) == numbers(&rust) && arrays(&port.state) == arrays(&rust.state));
        self.compare(call, &port, &rust, was_true, is_same);
        if rust.refusal == 2 && lent.numbers[..3] == self.rightly_lent().numbers[..3] {
            self.tallies.powers_alone.call(is_same);
        }
        self.compare_powers(call, was_true, is_same);
        if rust.refusal == 0 {
            self.beside(call, &rust);
        }
    }

    /// By what was called and what was answered: whether all is the same, and in the report what the last block did.
    fn compare(
        &mut self,
        call: &Call,
        port: &Answer,
        rust: &Answer,
        was_true: bool,
        is_same: bool,
    ) {
        let tallies = &mut self.tallies;
        let kind = match was_true {
            true => usize::from(self.counts.is_foreign),
            false => 2,
        };
        let of_call = match call {
            Call::Create(..) => &mut tallies.create,
            Call::Process(..) => &mut tallies.process[kind],
            Call::Flush => &mut tallies.flush[kind],
            Call::Reset => &mut tallies.reset,
        };
        of_call.call(is_same);
        tallies.answers[rust.refusal as usize].call(is_same);
        if let Call::Process(..) | Call::Flush = call {
            tallies.outcomes[rust.outcome as usize].call(is_same);
            let is_same = (port.reason, bits(port.leak)) == (rust.reason, bits(rust.leak));
            tallies.reasons[rust.reason as usize].call(is_same);
            tallies.overs[usize::from(rust.overs > 0)].call(port.overs == rust.overs);
        }
    }

    /// Number by number, and whether all are the same.
    fn compare_buffers(&mut self, delivered: usize) -> bool {
        let tallies = &mut self.tallies;
        let (port, rust) = (&self.port, &self.rust);
        let (heard, beyond) = port.out.split_at(delivered);
        let (wanted, beyond_wanted) = rust.out.split_at(delivered);
        let mut is_same = tallies.beyond.samples(beyond, beyond_wanted);
        if delivered > 0 {
            let stream = STREAMS.iter().position(|(p, _)| *p == self.partitions);
            is_same &= tallies.samples[stream.unwrap()].samples(heard, wanted);
        }
        let buffers = port.buffers.iter().zip(&rust.buffers);
        for (tally, (x, y)) in tallies.buffers.iter_mut().zip(buffers) {
            is_same &= tally.all(x, y);
        }
        is_same
    }

    /// Each of the port's powers is the one worked out from its bin where the Rust's are.
    fn compare_powers(&mut self, call: &Call, was_true: bool, is_same: bool) {
        if !self.rust.has_true_powers(self.partitions) {
            return;
        }
        if !was_true && !matches!(call, Call::Create(..)) {
            self.tallies.true_again.call(is_same);
        }
        let [spectra, powers] = self.port.kept(self.partitions);
        let mut squares = vec![0.0; powers.len()];
        work_out(spectra, &mut squares);
        self.tallies.squares.all(powers, &squares);
    }

    /// The Rust's own call, against the reference's.
    fn beside(&mut self, call: &Call, rust: &Answer) {
        let samples = match call {
            Call::Create(partitions, suppress) => {
                self.own = Continued::created(*partitions, *suppress);
                Vec::new()
            }
            Call::Process(near, far) => self.own.process(near, far),
            Call::Flush => self.own.flush(),
            Call::Reset => {
                self.own.reset();
                Vec::new()
            }
        };
        let is_reported = match call {
            Call::Process(..) | Call::Flush => self.own.reports(rust),
            _ => true,
        };
        let lent = lend(&mut self.rust.buffers, sizes(rust.state.partitions));
        let buffers = lent.map(|buffer| &*buffer);
        let same_bits = |(x, y): (&f32, &f32)| bits32(*x) == bits32(*y);
        let is_same = is_reported
            && samples.len() == rust.delivered
            && samples.iter().zip(&self.rust.out).all(same_bits)
            && self.own.is_at(&rust.state, buffers);
        self.tallies.own.call(is_same);
    }
}

/// The state with one number out of its range.
fn out_of_range(mut state: TauCanceller, which: usize) -> TauCanceller {
    match which {
        0 => state.partitions = 0,
        1 => state.partitions = MOST_PARTITIONS + 1,
        2 => state.partitions = usize::MAX,
        3 => state.far.head = state.partitions,
        4 => state.far.head = usize::MAX,
        5 => state.carried = BLOCK,
        6 => state.carried = usize::MAX,
        7 => state.mic.paths.rescue_streak = 8,
        8 => state.mic.paths.rescue_streak = u32::MAX,
        9 => state.mic.detector.dtd_blocks = 65,
        _ => state.mic.detector.dtd_blocks = u32::MAX,
    }
    state
}
