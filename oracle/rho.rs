//! Rho, the port against the Rust, call by call. After each call are compared: what it answers, the state with it, both lent buffers and
//! the output buffer, these three with some room beyond what was lent. Bits are compared, NaN equal to NaN.
//!
//! A stream is a run of calls from a creation on: pairs in blocks of any length, now and then a flush, a reset, a call that is to be
//! refused, and a state that no call left, which is called foreign. From there on its calls count as foreign until the next creation.

mod aspeyruni;
#[allow(dead_code)] // the Rust's text, whole
mod canceller;
mod error;
mod inputs;
mod kinds;
mod rho_reference;
mod rust_rho;
mod tally;

use aspeyruni::rho::{self, Answer, RhoCanceller as State, Started};
use canceller::EchoCanceller;
use inputs::{bits, Noise, Random, DIGITS, SIGN, SIZES};
use kinds::*;
use rho_reference::MOST_PAIRS;
use rust_rho::RhoCanceller;
use tally::Tally;

/// Rate, tail and how many pairs: from 1 tap to 8,160, the most at the last rate.
const STREAMS: [(u32, u32, usize); 13] = [
    (16_000, 0, 300_000),
    (8_000, 1, 300_000),
    (44_099, 1, 200_000),
    (16_000, 4, 200_000),
    (11_025, 10, 200_000),
    (22_050, 12, 100_000),
    (32_000, 16, 60_000),
    (8_000, 125, 50_000),
    (44_100, 25, 40_000),
    (16_000, 100, 30_000),
    (16_000, 200, 20_000),
    (48_000, 100, 10_000),
    (48_000, 170, 6_000),
];

/// So many creations besides, most of them refused.
const CREATIONS: usize = 10_000;

/// Beyond what is lent of a buffer.
const ROOM: usize = 8;

/// What a foreign buffer is of.
const KINDS: [Kind; 14] = [
    SILENCE, SOUND, FULL, QUARTER, LOUD, FAINT, LEAST, SUBNORMAL, SMALL, HUGE, LARGE, INFINITE,
    NAN, ANY,
];

/// Powers of a foreign state: any, 2^-15 to 2 of either sign, and none that is finite.
const POWERS: [[u64; 2]; 3] = [
    [0, !0],
    [0x3ff << 52, SIGN | SIZES | DIGITS],
    [0x7ff << 52, SIGN | 1],
];

/// What a block of pairs is made of.
#[derive(Clone, Copy)]
enum Scene {
    /// Near and far, each of its kind.
    Kinds(Kind, Kind),
    /// Far, and near its echo at three lags, with a faint sound besides.
    Echo(Kind),
    /// Such an echo, with one sample in sixteen not finite.
    Strewn,
}

/// Those in which the filter learns come more than once.
const SCENES: [Scene; 16] = [
    Scene::Echo(FULL),
    Scene::Echo(FULL),
    Scene::Echo(SOUND),
    Scene::Echo(SOUND),
    Scene::Strewn,
    Scene::Kinds(QUARTER, FULL),
    Scene::Kinds(QUARTER, FULL),
    Scene::Kinds(FAINT, SOUND),
    Scene::Kinds(LOUD, FULL),
    Scene::Kinds(SOUND, SILENCE),
    Scene::Kinds(SILENCE, SOUND),
    Scene::Kinds(LEAST, LEAST),
    Scene::Kinds(LARGE, HUGE),
    Scene::Kinds(QUARTER, HUGE),
    Scene::Kinds(NAN, INFINITE),
    Scene::Kinds(ANY, ANY),
];

/// A call, and what it is given besides the state and the buffers.
enum Call {
    Create(u32, u32),
    Process(Vec<f32>, Vec<f32>),
    Flush,
    Reset,
}

/// One side's functions.
struct Functions {
    create: fn(u32, u32, &mut [f32], &mut [f32]) -> Started,
    process: fn(State, &mut [f32], &mut [f32], &[f32], &[f32], &mut [f32]) -> Answer,
    flush: fn(State, &[f32], &[f32]) -> Answer,
    reset: fn(State, &mut [f32], &mut [f32]) -> Started,
}

const PORT: Functions = Functions {
    create: rho::create,
    process: rho::process,
    flush: rho::flush,
    reset: rho::reset,
};

const RUST: Functions = Functions {
    create: rho_reference::create,
    process: rho_reference::process,
    flush: rho_reference::flush,
    reset: rho_reference::reset,
};

/// One side's state and buffers, which are longer than what is lent of them.
#[derive(Clone, Default)]
struct Side {
    state: State,
    weights: Vec<f32>,
    history: Vec<f32>,
    out: Vec<f32>,
}

/// How much is lent of each buffer.
#[derive(Clone, Copy)]
struct Lent {
    weights: usize,
    history: usize,
    out: usize,
}

impl Side {
    fn call(&mut self, functions: &Functions, call: &Call, lent: Lent) -> Answer {
        let weights = &mut self.weights[..lent.weights];
        let history = &mut self.history[..lent.history];
        let out = &mut self.out[..lent.out];
        let answer = match call {
            Call::Create(rate, tail) => (functions.create)(*rate, *tail, weights, history).whole(),
            Call::Process(near, far) => {
                (functions.process)(self.state, weights, history, near, far, out)
            }
            Call::Flush => (functions.flush)(self.state, weights, history),
            Call::Reset => (functions.reset)(self.state, weights, history).whole(),
        };
        self.state = answer.state;
        answer
    }
}

/// All that is in an answer.
fn numbers(answer: Answer) -> [u64; 11] {
    let Answer { state, report, .. } = answer;
    [
        answer.refusal.into(),
        answer.delivered as u64,
        state.taps as u64,
        state.pos as u64,
        state.hangover_samples.into(),
        state.hangover_remaining.into(),
        bits(state.near_power),
        bits(state.residual_power),
        state.divergence_resets,
        report.divergence_resets,
        report.double_talk.into(),
    ]
}

/// What a pair comes to.
#[derive(Clone, Copy)]
enum Branch {
    Loud,
    Frozen,
    Updated,
    OutputDiverged,
    UpdateDiverged,
}

const BRANCHES: [&str; 5] = [
    "loud",
    "frozen",
    "updated",
    "diverged in the output",
    "diverged in the update",
];

/// What each pair comes to, by the Rust's state after it. A loud pair leaves the whole freeze, and no other does. Where the output
/// diverged, 0.0 is delivered. Where the update did, something else is: with an error that narrows to 0.0 no weight moves so far.
fn branches(mut engine: RhoCanceller, near: &[f32], far: &[f32]) -> Vec<Branch> {
    let mut resets = engine.read_state().divergence_resets;
    let mut branches = Vec::new();
    for (x, y) in near.iter().zip(far) {
        let mut out = Vec::new();
        let Ok(()) = engine.process(&[*x], &[*y], &mut out);
        let state = engine.read_state();
        branches.push(if state.divergence_resets != resets {
            if out[0] == 0.0 {
                Branch::OutputDiverged
            } else {
                Branch::UpdateDiverged
            }
        } else if state.hangover_remaining == state.hangover_samples {
            Branch::Loud
        } else if state.hangover_remaining > 0 {
            Branch::Frozen
        } else {
            Branch::Updated
        });
        resets = state.divergence_resets;
    }
    branches
}

#[derive(Default)]
struct Tallies {
    create: Tally,
    process: Tally,
    foreign: Tally,
    flush: Tally,
    reset: Tally,
    refusals: [Tally; 7],
    samples: [Tally; 5],
    beyond: Tally,
    weights: Tally,
    history: Tally,
}

impl Tallies {
    fn tell(&self) {
        self.create.tell_calls("rho create");
        self.process.tell_calls("rho process");
        self.foreign.tell_calls("rho process, foreign state");
        self.flush.tell_calls("rho flush");
        self.reset.tell_calls("rho reset");
        for (number, tally) in self.refusals.iter().enumerate() {
            tally.tell_calls(&format!("rho answer {number}"));
        }
        for (name, tally) in BRANCHES.iter().zip(&self.samples) {
            tally.tell(&format!("rho pairs, {name}"));
        }
        self.beyond.tell("rho output buffer beyond the pairs");
        self.weights.tell("rho weights");
        self.history.tell("rho history");
    }
}

/// Both sides of a stream, and what has been compared.
struct Both {
    random: Random,
    tallies: Tallies,
    port: Side,
    rust: Side,
    taps: usize,
    is_foreign: bool,
    /// The last three far samples, for the echo.
    last: [f32; 3],
}

fn main() {
    let mut both = Both {
        random: Random(0x9e37_79b9_7f4a_7c15),
        tallies: Tallies::default(),
        port: Side::default(),
        rust: Side::default(),
        taps: 0,
        is_foreign: false,
        last: [0.0; 3],
    };
    for _ in 0..CREATIONS {
        both.creation();
    }
    for (rate, tail, pairs) in STREAMS {
        both.stream(rate, tail, pairs);
    }
    both.tallies.tell();
}

impl Both {
    fn noise(&mut self, kind: Kind, count: usize) -> Vec<f32> {
        samples(self.random.seed(), kind, count)
    }

    /// New buffers for so many taps, with noise in them.
    fn buffers(&mut self, taps: usize) {
        self.taps = taps;
        self.port = Side {
            state: State::default(),
            weights: self.noise(ANY, taps + ROOM),
            history: self.noise(ANY, taps + ROOM),
            out: self.noise(ANY, MOST_PAIRS + ROOM),
        };
        self.rust = self.port.clone();
    }

    /// One with any settings, over buffers of the length that they ask for, or of another.
    fn creation(&mut self) {
        let rates = [0, 7_999, 8_000, 8_192, 8_193, 48_000, 48_001, u32::MAX];
        let tails = [0, 1, 170, 171, 999, 1_000, 1_001, u32::MAX];
        let [i, j] = [rates.len(), tails.len()].map(|n| self.random.below(2 * n));
        let any = [50_000, 1_100].map(|n| self.random.below(n) as u32);
        let rate = *rates.get(i).unwrap_or(&any[0]);
        let tail = *tails.get(j).unwrap_or(&any[1]);
        let asked = u64::from(rate) * u64::from(tail) / 1000;
        self.buffers(asked.clamp(1, 9_000) as usize);
        let lent = self.wrongly_lent();
        self.call(&Call::Create(rate, tail), lent);
    }

    fn rightly_lent(&self) -> Lent {
        Lent {
            weights: self.taps,
            history: self.taps,
            out: self.port.out.len(),
        }
    }

    /// Or rightly, for half of the time.
    fn wrongly_lent(&mut self) -> Lent {
        let mut lent = self.rightly_lent();
        let taps = self.taps;
        let wrong = self.random.one_of(&[0, taps - 1, taps + 1, taps + ROOM]);
        let choice = self.random.below(6);
        if choice == 0 || choice == 1 {
            lent.weights = wrong;
        }
        if choice == 0 || choice == 2 {
            lent.history = wrong;
        }
        lent
    }

    fn stream(&mut self, rate: u32, tail: u32, pairs: usize) {
        self.buffers((rate as usize * tail as usize / 1000).max(1));
        self.begin(rate, tail);
        let mut done = 0;
        while done < pairs {
            let scene = self.random.one_of(&SCENES);
            let most = self.random.one_of(&[0, 1, 2, 30, 30, 300, 300, MOST_PAIRS]);
            let count = self.random.below(most.min(pairs - done) + 1);
            let block = self.block(scene, count);
            self.call(&block, self.rightly_lent());
            done += count;
            match self.random.below(24) {
                0..3 => self.begin(rate, tail),
                3 => self.call(&Call::Reset, self.rightly_lent()),
                4..6 => self.call(&Call::Flush, self.rightly_lent()),
                6..12 => (0..4).for_each(|_| self.wrong()),
                12..14 => self.foreign(),
                14 => (0..4).for_each(|_| self.heavy()),
                _ => {}
            }
        }
    }

    fn begin(&mut self, rate: u32, tail: u32) {
        self.is_foreign = false;
        self.call(&Call::Create(rate, tail), self.rightly_lent());
    }

    fn block(&mut self, scene: Scene, count: usize) -> Call {
        let (near, far) = match scene {
            Scene::Kinds(near, far) => (self.noise(near, count), self.noise(far, count)),
            Scene::Echo(kind) => self.echo(kind, count),
            Scene::Strewn => {
                let (mut near, mut far) = self.echo(FULL, count);
                self.random.strew(near.iter_mut().chain(&mut far), 16);
                (near, far)
            }
        };
        Call::Process(near, far)
    }

    fn echo(&mut self, kind: Kind, count: usize) -> (Vec<f32>, Vec<f32>) {
        let far = self.noise(kind, count);
        let mut near = self.noise(FAINT, count);
        for (x, y) in near.iter_mut().zip(&far) {
            let [a, b, c] = self.last;
            *x += 0.2 * a - 0.1 * b + 0.05 * c;
            self.last = [*y, a, b];
        }
        (near, far)
    }

    /// A call in which one thing is wrong, or several are, or none. A state that was wrong is put right after.
    fn wrong(&mut self) {
        let before = self.rust.state;
        let is_state_wrong = self.random.below(3) == 0;
        if is_state_wrong {
            let which = self.random.below(11);
            self.set(out_of_range(before, which));
        }
        let mut lent = self.wrongly_lent();
        let call = match self.random.below(4) {
            0 => Call::Flush,
            1 => Call::Reset,
            _ => {
                let near = self.random.one_of(&[0, 1, 100, 4_096, 4_097, 5_000]);
                let far = self.random.one_of(&[near, near, near + 1, 4_097]);
                let out = self.random.one_of(&[lent.out, near.max(1) - 1, 0]);
                lent.out = out.min(lent.out);
                Call::Process(self.noise(FULL, near), self.noise(FULL, far))
            }
        };
        self.call(&call, lent);
        if is_state_wrong {
            self.set(before);
        }
    }

    fn set(&mut self, state: State) {
        (self.port.state, self.rust.state) = (state, state);
    }

    /// Any state in range, and any buffers.
    fn foreign(&mut self) {
        let state = self.foreign_state();
        let [weights, history] = [0; 2].map(|_| self.foreign_buffer());
        self.set_all(state, weights, history);
    }

    /// A filter so heavy that what it gives may still be finite and its next weights are not, with few quiet pairs for it.
    fn heavy(&mut self) {
        let mut state = self.foreign_state();
        state.hangover_remaining = 0;
        let [weights, history] = [HUGE, QUARTER].map(|kind| self.noise(kind, self.taps + ROOM));
        self.set_all(state, weights, history);
        let block = self.block(Scene::Kinds(FAINT, SOUND), 3);
        self.call(&block, self.rightly_lent());
    }

    fn set_all(&mut self, state: State, weights: Vec<f32>, history: Vec<f32>) {
        self.set(state);
        self.is_foreign = true;
        // No signalling NaN, as kinds.rs has it.
        let quiet = |x: f32| if x.is_nan() { f32::NAN } else { x };
        let history: Vec<f32> = history.into_iter().map(quiet).collect();
        for side in [&mut self.port, &mut self.rust] {
            side.weights.clone_from(&weights);
            side.history.clone_from(&history);
        }
    }

    fn foreign_state(&mut self) -> State {
        let random = &mut self.random;
        let any = random.below(self.taps);
        let hangover = 120 + random.below(601) as u32;
        let [near_power, residual_power] = [0; 2].map(|_| {
            let [base, mask] = random.one_of(&POWERS);
            let word = random.seed();
            Noise { word, base, mask }.number()
        });
        State {
            taps: self.taps,
            pos: random.one_of(&[0, any, self.taps - 1]),
            hangover_samples: hangover,
            hangover_remaining: random.one_of(&[0, 1, 2, hangover / 2, hangover - 1, hangover]),
            near_power,
            residual_power,
            divergence_resets: random.one_of(&[0, 1, u64::MAX - 1, u64::MAX]),
        }
    }

    /// Of one kind, or all but one number.
    fn foreign_buffer(&mut self) -> Vec<f32> {
        let [kind, other] = [0; 2].map(|_| self.random.one_of(&KINDS));
        let mut buffer = self.noise(kind, self.taps + ROOM);
        let place = self.random.below(2 * self.taps);
        if place < self.taps {
            buffer[place] = self.noise(other, 1)[0];
        }
        buffer
    }

    /// The call on both sides, with all that is to be compared after it.
    fn call(&mut self, call: &Call, lent: Lent) {
        self.port.out = self.noise(FULL, MOST_PAIRS + ROOM);
        self.rust.out = self.port.out.clone();
        let before = RhoCanceller::set(
            self.rust.state,
            &self.rust.weights[..self.taps],
            &self.rust.history[..self.taps],
        );
        let port = self.port.call(&PORT, call, lent);
        let rust = self.rust.call(&RUST, call, lent);
        self.compare(call, port, rust);
        let delivered = match call {
            Call::Process(near, far) if rust.refusal == 0 => branches(before, near, far),
            _ => Vec::new(),
        };
        let mut samples = self.port.out.iter().zip(&self.rust.out);
        for branch in delivered {
            let (x, y) = samples.next().unwrap();
            self.tallies.samples[branch as usize].one((*x).into(), (*y).into());
        }
        for (x, y) in samples {
            self.tallies.beyond.one((*x).into(), (*y).into());
        }
    }

    fn compare(&mut self, call: &Call, port: Answer, rust: Answer) {
        let tallies = &mut self.tallies;
        let is_same = numbers(port) == numbers(rust);
        let of_call = match call {
            Call::Create(..) => &mut tallies.create,
            Call::Process(..) if self.is_foreign => &mut tallies.foreign,
            Call::Process(..) => &mut tallies.process,
            Call::Flush => &mut tallies.flush,
            Call::Reset => &mut tallies.reset,
        };
        of_call.call(is_same);
        tallies.refusals[rust.refusal as usize].call(is_same);
        let (port, rust) = (&self.port, &self.rust);
        tallies.weights.samples(&port.weights, &rust.weights);
        tallies.history.samples(&port.history, &rust.history);
    }
}

/// The state with one number out of its range.
fn out_of_range(mut state: State, which: usize) -> State {
    match which {
        0 => state.taps = 0,
        1 => state.taps = rho_reference::MOST_TAPS + 1,
        2 => state.taps = usize::MAX,
        3 => state.pos = state.taps,
        4 => state.pos = usize::MAX,
        5 => state.hangover_samples = 0,
        6 => (state.hangover_samples, state.hangover_remaining) = (119, 0),
        7 => state.hangover_samples = 721,
        8 => state.hangover_samples = u32::MAX,
        9 => state.hangover_remaining = state.hangover_samples + 1,
        _ => state.hangover_remaining = u32::MAX,
    }
    state
}
