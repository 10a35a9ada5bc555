//! Calls of Rho in a row, with what the Rust gives after each, completed by document 01's refusals (rho_reference.rs). `oracle/lists`
//! writes them to crates/rho_cases/stdin, which the program `rho_cases` replays. Its src/main.rt says what the fields of a line are.

mod aspeyruni;
#[allow(dead_code)] // the Rust's text, whole
mod canceller;
mod error;
mod inputs;
mod kinds;
mod recipe;
mod rho_reference;
mod rust_rho;

use aspeyruni::rho::{Answer, RhoCanceller as State, Started};
use inputs::{bits, bits32, halves, hash32, line, turned, word_of, Random};
use inputs::{DIGITS32, SIGN32};
use kinds::*;
use recipe::Recipe;

/// The sizes of the program's buffers, of which a call is lent the first part.
const MOST_TAPS: usize = 8200;
const MOST_PAIRS: usize = 4104;

/// What a foreign buffer is of.
const KINDS: [Kind; 12] = [
    SILENCE, SOUND, FULL, QUARTER, LOUD, FAINT, LEAST, SUBNORMAL, HUGE, LARGE, INFINITE, NAN,
];

/// The lines so far, and what they leave to the next.
struct List {
    text: String,
    random: Random,
    state: State,
    weights: Vec<f32>,
    history: Vec<f32>,
    /// How much is lent of the two.
    lent: [usize; 2],
}

/// What the output buffer then holds, of what is lent, and the two samples to show.
#[derive(Default)]
struct Out {
    hash: u64,
    shown: [u32; 2],
}

impl List {
    fn seed(&mut self) -> u64 {
        self.random.word()
    }

    /// A line, by its fields 0 to 8, the answer and the output buffer. The state of the answer is the next one's.
    fn line(&mut self, letter: char, given: [u64; 9], answer: Answer, out: Out) {
        let [w, h] = self.lent;
        let s = answer.state;
        let freeze = [s.hangover_samples, s.hangover_remaining].map(|n| n as usize);
        let gives = [
            halves([answer.refusal as usize, answer.delivered]),
            answer.report.divergence_resets,
            answer.report.double_talk.into(),
            s.taps as u64,
            s.pos as u64,
            halves(freeze),
            bits(s.near_power),
            bits(s.residual_power),
            s.divergence_resets,
            hash32(&self.weights[..w]),
            hash32(&self.history[..h]),
            out.hash,
            halves(out.shown.map(|n| n as usize)),
        ];
        self.text += &line(letter, given.iter().chain(&gives));
        self.state = s;
    }

    fn create(&mut self, rate: u32, tail: u32) {
        let [w, h] = self.lent;
        let started =
            rho_reference::create(rate, tail, &mut self.weights[..w], &mut self.history[..h]);
        let settings = halves([rate as usize, tail as usize]);
        let given = [0, 0, 0, 0, 0, 0, halves(self.lent), settings, 0];
        self.line('c', given, started.whole(), Out::default());
    }

    /// With as many of each as the settings ask for. How many taps there are.
    fn begin(&mut self, rate: u32, tail: u32) -> usize {
        let taps = (rate as usize * tail as usize / 1000).max(1);
        self.lent = [taps; 2];
        self.create(rate, tail);
        taps
    }

    fn process(&mut self, near: Recipe, far: Recipe, pairs: [usize; 2], room: usize) {
        let [w, h] = self.lent;
        let (weights, history) = (&mut self.weights[..w], &mut self.history[..h]);
        let mut out = Recipe::noise(1, FULL).samples(MOST_PAIRS);
        let answer = rho_reference::process(
            self.state,
            weights,
            history,
            &near.samples(pairs[0]),
            &far.samples(pairs[1]),
            &mut out[..room],
        );
        let shown = |n: usize| match n.checked_sub(1).and_then(|i| out[..room].get(i)) {
            Some(x) => bits32(*x),
            None => 0,
        };
        let after = Out {
            hash: hash32(&out[..room]),
            shown: [shown(1), shown(pairs[0])],
        };
        let ([a, b, c], [d, e, f]) = (near.fields(), far.fields());
        let lengths = [halves(self.lent), halves(pairs), room as u64];
        let given = [a, b, c, d, e, f, lengths[0], lengths[1], lengths[2]];
        self.line('p', given, answer, after);
    }

    /// So many pairs, with room for some more samples.
    fn pairs(&mut self, near: Recipe, far: Recipe, count: usize) {
        self.process(near, far, [count; 2], (count + 3).min(MOST_PAIRS));
    }

    fn kinds(&mut self, near: Kind, far: Kind, count: usize) {
        let (a, b) = (self.seed(), self.seed());
        self.pairs(Recipe::noise(a, near), Recipe::noise(b, far), count);
    }

    fn flush(&mut self) {
        let [w, h] = self.lent;
        let answer = rho_reference::flush(self.state, &self.weights[..w], &self.history[..h]);
        let given = [0, 0, 0, 0, 0, 0, halves(self.lent), 0, 0];
        self.line('f', given, answer, Out::default());
    }

    fn reset(&mut self) {
        let [w, h] = self.lent;
        let (weights, history) = (&mut self.weights[..w], &mut self.history[..h]);
        let started = rho_reference::reset(self.state, weights, history);
        let given = [0, 0, 0, 0, 0, 0, halves(self.lent), 0, 0];
        self.line('r', given, started.whole(), Out::default());
    }

    /// No call: a state and the buffers.
    fn set(&mut self, state: State, weights: Recipe, history: Recipe) {
        let [w, h] = self.lent;
        self.weights[..w].copy_from_slice(&weights.samples(w));
        self.history[..h].copy_from_slice(&history.samples(h));
        let ([a, b, c], [d, e, f]) = (weights.fields(), history.fields());
        let given = [a, b, c, d, e, f, halves(self.lent), 0, 0];
        self.line(
            's',
            given,
            Started { refusal: 0, state }.whole(),
            Out::default(),
        );
    }

    /// No call: up to six weights, by their lags.
    fn put(&mut self, weights: &[f32]) {
        let mut given = [u64::MAX; 9];
        for (k, x) in weights.iter().enumerate() {
            self.weights[k] = *x;
            given[k] = halves([k, bits32(*x) as usize]);
        }
        given[6..].copy_from_slice(&[halves(self.lent), 0, 0]);
        let state = self.state;
        self.line(
            'w',
            given,
            Started { refusal: 0, state }.whole(),
            Out::default(),
        );
    }
}

fn main() {
    let mut list = List {
        text: String::new(),
        random: Random(0x2545_f491_4f6c_dd1d),
        state: State::default(),
        weights: vec![0.0; MOST_TAPS],
        history: vec![0.0; MOST_TAPS],
        lent: [16; 2],
    };
    settings(&mut list);
    for (rate, tail) in STREAMS {
        stream(&mut list, rate, tail);
    }
    lengths(&mut list);
    kinds(&mut list);
    foreign(&mut list);
    loudness(&mut list);
    order_of_sums(&mut list);
    divergence(&mut list);
    refused_states(&mut list);
    refused_lengths(&mut list);
    // these came later: at the end, so that the lines before them keep their seeds
    oldest(&mut list);
    error_overflows(&mut list);
    order_of_energy(&mut list);
    refused_without_pairs(&mut list);
    print!("{}", list.text);
}

/// Settings with the least and the most taps, and between.
const INSIDE: [(u32, u32); 6] = [
    (8_000, 0),
    (8_000, 1),
    (11_025, 3),
    (48_000, 1),
    (48_000, 170),
    (8_192, 1_000),
];

/// A rate or a tail out of its range, and more taps than there may be.
const OUTSIDE: [(u32, u32); 9] = [
    (7_999, 1),
    (48_001, 1),
    (0, 0),
    (u32::MAX, 1),
    (8_000, 1_001),
    (16_000, u32::MAX),
    (16_000, 513),
    (8_193, 1_000),
    (48_000, 171),
];

/// Creations over buffers that hold something, first M10's: 1 tap, and a freeze of 240.
fn settings(list: &mut List) {
    list.set(State::default(), Recipe::of(1.0), Recipe::of(-1.0));
    list.begin(16_000, 0);
    for (rate, tail) in INSIDE {
        list.begin(rate, tail);
        list.set(list.state, Recipe::of(2.0), Recipe::of(-2.0));
    }
    for (rate, tail) in OUTSIDE {
        for taps in [8, 8_193] {
            list.lent = [taps; 2];
            list.create(rate, tail);
        }
    }
    for lent in wrong_of(16) {
        list.lent = lent;
        list.create(16_000, 1);
    }
    list.lent = [0, 0];
    list.create(16_000, 0);
    // on the state that a refused creation gives
    list.flush();
    list.reset();
    list.kinds(FULL, FULL, 1);
}

/// Lengths of the two buffers that are wrong for so many taps.
fn wrong_of(taps: usize) -> [[usize; 2]; 8] {
    [
        [taps - 1, taps],
        [taps, taps - 1],
        [taps + 1, taps],
        [taps, taps + 1],
        [0, taps],
        [taps, 0],
        [0, 0],
        [MOST_TAPS, MOST_TAPS],
    ]
}

/// Rates and tails, for 1, 1, 8, 33, 44, 64, 48, 1,000 and 3,200 taps.
const STREAMS: [(u32, u32); 9] = [
    (8_000, 0),
    (16_000, 0),
    (8_000, 1),
    (11_025, 3),
    (44_100, 1),
    (16_000, 4),
    (48_000, 1),
    (8_000, 125),
    (16_000, 200),
];

/// Sound in the room alone, then an echo to learn in cuts, then talk, the freeze to its last pair, and the calls between.
fn stream(list: &mut List, rate: u32, tail: u32) {
    let taps = list.begin(rate, tail);
    let (near, far) = (list.seed(), list.seed());
    let talk = Recipe::noise(near, SOUND).marked(2, -0.0);
    list.pairs(talk, Recipe::noise(far, SILENCE).marked(3, f32::NAN), 5);
    list.flush();
    list.reset();
    let lag = (taps - 1).min(5);
    let mut word = list.seed();
    for count in [1, 2, 0, 7, 30] {
        echo(list, &mut word, lag, count);
    }
    list.kinds(LOUD, FULL, 3);
    let freeze = list.state.hangover_samples as usize;
    list.kinds(QUARTER, FULL, freeze - 2);
    for _ in 0..3 {
        echo(list, &mut word, lag, 1);
    }
    list.flush();
    let broken = Recipe::noise(list.seed(), FAINT).marked(1, f32::INFINITY);
    let far = Recipe::noise(list.seed(), SOUND).marked(1, f32::NEG_INFINITY);
    list.pairs(broken, far, 3);
    list.kinds(FAINT, SOUND, 20);
    list.kinds(FULL, FULL, 20);
    list.reset();
    list.kinds(QUARTER, FULL, 10);
}

/// Near is a quarter of far, so many samples later: both are made of the same words.
fn echo(list: &mut List, word: &mut u64, lag: usize, count: usize) {
    let far = (0..lag).fold(*word, |word, _| turned(word));
    let near = Recipe::noise(*word, QUARTER);
    list.pairs(near, Recipe::noise(far, FULL), count);
    *word = (0..count).fold(*word, |word, _| turned(word));
}

/// Calls of the most pairs, and the same pairs in cuts: the states after are the same.
fn lengths(list: &mut List) {
    list.begin(8_000, 1);
    let mut word = list.seed();
    let before = word;
    for cuts in [vec![4_096], vec![1, 4_000, 0, 94, 1], vec![2_048, 2_048]] {
        word = before;
        list.reset();
        for count in cuts {
            echo(list, &mut word, 3, count);
        }
    }
    echo(list, &mut word, 3, 4_096);
    list.flush();
}

/// Near of every kind with far of every kind, from the fresh state on, near in the order of its size.
fn kinds(list: &mut List) {
    list.begin(16_000, 1);
    let order = [
        SILENCE, LEAST, FAINT, QUARTER, FULL, SOUND, LOUD, HUGE, INFINITE, ANY,
    ];
    for far in KINDS.into_iter().chain([ANY]) {
        list.reset();
        for near in order {
            list.kinds(near, far, 12);
        }
    }
}

/// States that no call leaves: any floats in the buffers and the powers, any position, any part of the freeze left.
fn foreign(list: &mut List) {
    let powers = [
        0.0,
        -0.0,
        1.0,
        -1.0,
        f64::NAN,
        f64::INFINITY,
        f64::NEG_INFINITY,
        f64::MAX,
        f64::from_bits(1),
    ];
    for (i, weights) in KINDS.iter().enumerate() {
        for (j, history) in KINDS.iter().enumerate() {
            if (i + 2 * j) % 3 != 0 {
                continue;
            }
            let taps = 1 + list.random.below(20);
            let any = list.random.below(taps);
            let hangover = 120 + list.random.below(601) as u32;
            let state = State {
                taps,
                pos: list.random.one_of(&[0, any, taps - 1]),
                hangover_samples: hangover,
                hangover_remaining: list.random.one_of(&[0, 1, 2, hangover]),
                near_power: list.random.one_of(&powers),
                residual_power: list.random.one_of(&powers),
                divergence_resets: list.random.one_of(&[0, u64::MAX - 1, u64::MAX]),
            };
            list.lent = [taps; 2];
            let [a, b] = [*weights, *history].map(|kind| Recipe::noise(list.seed(), kind));
            list.set(state, a, b);
            list.kinds(FAINT, FULL, 4);
        }
    }
}

/// A state of so many taps with nothing frozen, the newest far sample at `pos`.
fn quiet(taps: usize, pos: usize) -> State {
    State {
        taps,
        pos,
        hangover_samples: 240,
        ..State::default()
    }
}

fn bits_of(pattern: u32) -> Recipe {
    Recipe::of(f32::from_bits(pattern))
}

/// Where loud begins: above half the peak, by an f32 product. Of far bits 3 and near bits 2 the product is 2 in f32, and 1.5 in f64.
fn loudness(list: &mut List) {
    list.begin(16_000, 0);
    for far in [0, 1, 2, 3, 5, 7] {
        for near in (far / 2).max(1) - 1..far / 2 + 3 {
            list.reset();
            list.pairs(bits_of(near), bits_of(far), 1);
        }
    }
    for near in [0.5f32.next_down(), 0.5, 0.5f32.next_up()] {
        for near in [near, -near] {
            list.reset();
            list.pairs(Recipe::of(near), Recipe::of(1.0), 1);
        }
    }
    // the peak is of the whole history, and a NaN in it is nothing
    list.lent = [4; 2];
    for mark in [1.0, -3.0, f32::NAN, f32::INFINITY] {
        for near in [0.5, 0.500_001, 1.5, 1.500_001] {
            let history = Recipe::of(0.25).marked(1, mark);
            list.set(quiet(4, 2), Recipe::of(0.0), history);
            list.pairs(Recipe::of(near), Recipe::of(1.0), 1);
        }
    }
}

/// Weights 0, 2^60, -2^60, 1 over equal far samples: newest first the sum is 1, the other way about 0. From every position.
fn order_of_sums(list: &mut List) {
    let big = 2f32.powi(60);
    for pos in 0..4 {
        for weights in [
            [0.0, big, -big, 1.0],
            [1.0, -big, big, 0.0],
            [big, 1.0, -big, 0.0],
        ] {
            list.lent = [4; 2];
            list.set(quiet(4, pos), Recipe::of(0.0), Recipe::of(1.0));
            list.put(&weights);
            list.pairs(Recipe::of(0.25), Recipe::of(1.0), 2);
        }
    }
}

/// Divergence, in the output and in the update, with the freeze at its end, and with the count at its largest number.
fn divergence(list: &mut List) {
    let (max, half) = (f32::MAX, 2f32.powi(127));
    // an error that an f32 does not hold; one that it holds, whose step is too much for a weight; and weights that are no numbers
    let filters = [
        [max, max, max],
        [max, -max, -half],
        [-max, half, max],
        [f32::NAN, 0.0, 0.0],
        [0.0, f32::INFINITY, 0.0],
    ];
    for weights in filters {
        for (left, resets) in [(0, 0), (1, 0), (2, 0), (0, u64::MAX - 1), (0, u64::MAX)] {
            let state = State {
                hangover_remaining: left,
                divergence_resets: resets,
                ..quiet(3, 1)
            };
            list.lent = [3; 2];
            list.set(state, Recipe::of(0.0), Recipe::of(1.0));
            list.put(&weights);
            list.pairs(Recipe::of(0.25), Recipe::of(1.0), 2);
        }
    }
    // a loud pair that diverges, and a reset, which keeps the count
    list.put(&[max, max, max]);
    list.pairs(Recipe::of(8.0), Recipe::of(1.0), 1);
    list.flush();
    list.reset();
    list.pairs(Recipe::of(0.25), Recipe::of(1.0), 1);
}

/// Every number out of its range, alone and where all else is wrong too.
fn refused_states(list: &mut List) {
    let right = quiet(4, 2);
    let mut states = [right; 12];
    states[0].taps = 0;
    states[1].taps = 8_193;
    states[2].taps = usize::MAX;
    states[3].pos = 4;
    states[4].pos = usize::MAX;
    states[5].hangover_samples = 119;
    states[6].hangover_samples = 721;
    states[7].hangover_samples = 0;
    states[8].hangover_samples = u32::MAX;
    states[9].hangover_remaining = 241;
    states[10].hangover_remaining = u32::MAX;
    states[11].taps = 2;
    for state in states {
        list.lent = [4; 2];
        list.set(state, Recipe::of(0.5), Recipe::of(0.75));
        list.flush();
        list.reset();
        list.kinds(FULL, FULL, 2);
        list.lent = [3, 5];
        list.process(Recipe::of(1.0), Recipe::of(1.0), [4_098, 4_097], 0);
    }
    // at the ends of the ranges
    for (taps, pos, hangover) in [(1, 0, 120), (8_192, 8_191, 720)] {
        let state = State {
            taps,
            pos,
            hangover_samples: hangover,
            hangover_remaining: hangover,
            ..right
        };
        list.lent = [taps; 2];
        list.set(state, Recipe::of(0.5), Recipe::of(0.75));
        list.flush();
        list.kinds(QUARTER, FULL, 2);
        list.reset();
    }
}

/// Lengths of near and far, and of the output buffer, for refusals 3, 4 and 5, each alone and before those after it.
const WRONG: [([usize; 2], usize); 12] = [
    ([1, 0], 8),
    ([0, 1], 8),
    ([5, 4], 8),
    ([4_097, 4_096], 4_104),
    ([4_098, 4_097], 0),
    ([4_097, 4_097], 4_104),
    ([4_104, 4_104], 4_104),
    ([4_097, 4_097], 4_096),
    ([4_097, 4_097], 0),
    ([1, 1], 0),
    ([100, 100], 99),
    ([4_096, 4_096], 4_095),
];

const RIGHT: [(usize, usize); 6] = [
    (0, 0),
    (0, 1),
    (1, 1),
    (1, 2),
    (4_096, 4_096),
    (4_096, 4_104),
];

/// Refusal 2, alone and before those after it, then the others, then lengths that are right.
fn refused_lengths(list: &mut List) {
    list.lent = [4; 2];
    let state = State {
        hangover_remaining: 7,
        near_power: 1.0,
        divergence_resets: 3,
        ..quiet(4, 2)
    };
    list.set(state, Recipe::of(0.5), Recipe::of(0.75));
    for lent in wrong_of(4) {
        list.lent = lent;
        list.flush();
        list.reset();
        list.kinds(FULL, FULL, 2);
        list.process(Recipe::of(1.0), Recipe::of(1.0), [4_098, 4_097], 0);
    }
    list.lent = [4; 2];
    for (pairs, room) in WRONG {
        list.process(Recipe::of(1.0), Recipe::of(1.0), pairs, room);
    }
    for (count, room) in RIGHT {
        list.process(Recipe::of(0.25), Recipe::of(1.0), [count; 2], room);
    }
}

/// The peak includes the oldest far sample: with it the last near sample is not loud, and one pair later it is.
fn oldest(list: &mut List) {
    let silence = Recipe::of(0.0);
    let far = silence.marked(0, 1.0);
    for last in [7, 8] {
        list.begin(8_000, 1);
        list.process(silence.marked(last, 0.4), far, [last + 1; 2], last + 1);
    }
}

/// An echo of -0.5, learnt; then a pair whose error no f32 holds, though its estimate is one.
fn error_overflows(list: &mut List) {
    list.begin(8_000, 0);
    let pairs = |list: &mut List, near, far, count| {
        list.process(Recipe::of(near), Recipe::of(far), [count; 2], count);
    };
    pairs(list, -0.5, 1.0, 4_000);
    pairs(list, 3e38, 3e38, 1);
}

/// The energy is a sum from the newest on: after 1.0 squares of such a size do not count, and before it their sum does. In one history the
/// newest stands first, in the other last.
fn order_of_energy(list: &mut List) {
    let taps = 8_192;
    let small = [0x63 << 23, SIGN32 | DIGITS32]; // 2^-28 to 2^-27
    for pos in [0, taps - 2] {
        list.lent = [taps; 2];
        let state = State {
            hangover_samples: 120,
            ..quiet(taps, pos)
        };
        let history = Recipe::noise(word_of(42), small);
        list.set(state, Recipe::of(0.0), history);
        list.process(Recipe::of(0.3), Recipe::of(1.0), [1; 2], 1);
    }
}

/// Process of no pairs is refused as any other: 2 by either buffer, and 6 by each of the numbers that have a range.
fn refused_without_pairs(list: &mut List) {
    let none = |list: &mut List| list.process(Recipe::of(0.0), Recipe::of(0.0), [0; 2], 0);
    for lent in [[7, 8], [8, 7]] {
        list.begin(8_000, 1);
        list.lent = lent;
        none(list);
    }
    let mut states = [quiet(4, 2); 4];
    states[0].taps = 8_193;
    states[1].pos = 4;
    states[2].hangover_samples = 119;
    states[3].hangover_remaining = 241;
    for state in states {
        list.lent = [4; 2];
        list.set(state, Recipe::of(0.5), Recipe::of(0.75));
        none(list);
    }
}
