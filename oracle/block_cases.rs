//! Blocks of Tau in a row, with what the Rust, completed by document 01 (oracle/rust), gives after each. `oracle/lists` writes them to
//! crates/block_cases/stdin, which the program `block_cases` replays. Its src/main.rt says what the fields of a line are.

mod aspeyruni;
mod block_borders;
mod block_overs;
mod block_powers;
mod block_reasons;
mod branches;
#[allow(dead_code)] // the Rust's text, whole
mod canceller;
mod config;
mod error;
#[allow(dead_code)]
mod fft;
mod house_detector;
mod inputs;
mod kinds;
mod recipe;
#[allow(dead_code)]
mod rust_tau;
mod taken;
mod tau_calls;
mod tau_lines;
mod tau_reference;

use aspeyruni::tau::*;
use branches::Counts;
use inputs::{bits, halves, hash, hash32, line, Random};
use kinds::*;
use recipe::Sounds;
use taken::Taken;
use tau_calls::Told;
use tau_lines::*;
use tau_reference::{sizes, Seen, MOST_PARTITIONS};

/// What a line comes to but for the state and the buffers.
struct Got {
    told: Told,
    block: [f32; BLOCK],
}

impl Got {
    fn nothing() -> Got {
        Got {
            told: Told::NOTHING,
            block: [0.0; BLOCK],
        }
    }
}

/// The lines so far, and what they leave to the next.
struct List {
    text: String,
    random: Random,
    state: TauCanceller,
    buffers: [Vec<f64>; 4],
    told: Told,
    taken: Taken,
    counts: Counts,
}

impl List {
    fn seed(&mut self) -> u64 {
        self.random.word()
    }

    /// As much of the buffers as the partitions have.
    fn lent(&mut self) -> Lent<'_> {
        lend(&mut self.buffers, sizes(self.state.partitions))
    }

    /// A line, by its fields 0 to 7 and what it comes to.
    fn line(&mut self, letter: char, given: [u64; 8], got: Got) {
        self.told = got.told;
        let Told { reason, overs } = got.told;
        let outcome = reason.outcome();
        let answered = [
            outcome.number().into(),
            bits(outcome.leak()),
            hash32(&got.block),
        ];
        let state = self.state;
        let buffers = self.lent().map(|buffer| &*buffer);
        let kept = tau_lines::fields(&state, buffers);
        let because = halves([reason.number() as usize, overs as usize]);
        let last = [because, hash(buffers[3])];
        let fields = given.iter().chain(&answered).chain(&kept).chain(&last);
        self.text += &line(letter, fields);
    }

    /// All as creation leaves it, but for the numbers of the state that are in no array.
    fn new_with(&mut self, state: TauCanceller) {
        self.state = state;
        self.lent().into_iter().for_each(|buffer| buffer.fill(0.0));
        self.counts.is_foreign = true;
        self.counts.has_diverged = false;
        self.line('n', [0; 8], Got::nothing());
    }

    fn create(&mut self, partitions: usize, suppress: bool) {
        self.new_with(tau_reference::fresh(partitions, suppress));
        self.counts.is_foreign = false;
    }

    /// Numbers of the state that are in no array.
    fn set(&mut self, change: impl Fn(&mut TauCanceller)) {
        change(&mut self.state);
        self.counts.is_foreign = true;
        self.line('s', [0; 8], Got::nothing());
    }

    /// An array, of which one number is of its own where the array has the place.
    fn make_with(&mut self, array: u64, kind: Kind, place: u64, mark: u64) {
        let noise = Recipe64::noise(self.seed(), kind);
        self.make_by(array, noise.with(place, mark));
    }

    fn make_by(&mut self, array: u64, recipe: Recipe64) {
        let mut state = self.state;
        recipe.make(array, &mut state, self.lent());
        self.state = state;
        self.counts.is_foreign = true;
        self.line('a', recipe.fields(array), Got::nothing());
    }

    fn make(&mut self, array: u64, kind: Kind) {
        self.make_with(array, kind, u64::MAX, 0);
    }

    /// Full blocks of a process call, or the one of flush.
    fn run(&mut self, letter: char, sounds: Sounds, valid: usize, count: usize) {
        let mut got = Got::nothing();
        let mut next = sounds;
        for _ in 0..count {
            let [near, far] = block(next, valid);
            // the next block's seeds are the hashes of this one's noise
            next = next.seeded(|recipe| hash32(&recipe.samples(BLOCK)));
            let (before, adapt) = (self.state, letter == 'b');
            let (answer, taken) =
                tau_reference::run_block(&before, &near, &far, valid, adapt, self.lent());
            self.counts.see(Seen {
                before: &before,
                blocked: &answer,
                taken,
                far: &far,
                flushes: !adapt,
            });
            self.state = answer.state;
            self.taken = taken;
            got = Got {
                told: answer.told,
                block: answer.block,
            };
        }
        self.line(letter, sounds.fields([valid, count]), got);
    }

    fn noise(&mut self, near: Kind, far: Kind, gain: f32) -> Sounds {
        Sounds::noise(&mut self.random, near, far, gain)
    }

    fn blocks(&mut self, near: Kind, far: Kind, gain: f32, count: usize) {
        let sounds = self.noise(near, far, gain);
        self.run('b', sounds, BLOCK, count);
    }

    /// So many blocks, a line each.
    fn each(&mut self, near: Kind, far: Kind, gain: f32, count: usize) {
        for _ in 0..count {
            self.blocks(near, far, gain, 1);
        }
    }

    fn flush(&mut self, near: Kind, far: Kind, gain: f32, valid: usize) {
        let sounds = self.noise(near, far, gain);
        self.run('f', sounds, valid, 1);
    }
}

/// Of the samples from `valid` on, which a flush pads, all are 0.0.
fn block(sounds: Sounds, valid: usize) -> [[f32; BLOCK]; 2] {
    sounds.samples(BLOCK).map(|mut samples| {
        samples[valid..].fill(0.0);
        samples.try_into().unwrap()
    })
}

fn main() {
    let mut list = List {
        text: String::new(),
        random: Random(0x2545_f491_4f6c_dd1d),
        state: tau_reference::fresh(1, true),
        buffers: sizes(MOST_PARTITIONS).map(|n| vec![0.0; n]),
        told: Told::NOTHING,
        taken: Taken::default(),
        counts: Counts::none(),
    };
    silence(&mut list);
    for partitions in [1, 2, 4, 13] {
        stream(&mut list, partitions, partitions != 2);
    }
    most_partitions(&mut list);
    talk_alone(&mut list);
    rescue(&mut list);
    overflow(&mut list);
    counters(&mut list);
    edges(&mut list);
    arrays(&mut list);
    numbers(&mut list);
    samples(&mut list);
    block_borders::all(&mut list);
    block_reasons::all(&mut list);
    block_overs::all(&mut list);
    block_powers::all(&mut list);
    list.counts.tell_all_taken();
    print!("{}", list.text);
}

/// Sound in the room alone, far being zeros of either sign; then the first far sound, at a block's end.
fn silence(list: &mut List) {
    for partitions in [1, 3] {
        list.create(partitions, true);
        list.each(SOUND, SILENCE, 0.0, 2);
        for valid in [1, 255] {
            list.flush(SOUND, SILENCE, 0.0, valid);
        }
        list.blocks(SILENCE, SILENCE, 0.0, 2);
        let mut sounds = list.noise(SOUND, SILENCE, 0.0);
        sounds.far = sounds.far.marked(255, 1.0);
        list.run('b', sounds, BLOCK, 1);
        list.each(SOUND, SILENCE, 0.0, 2);
        list.flush(SOUND, SILENCE, 0.0, 100);
    }
}

/// An echo to learn, from creation past the first moves; the echo turned and louder, to which the output adds, until the guard halves it;
/// talk over it; far silent and faint; flushes; and the echo again.
fn stream(list: &mut List, partitions: usize, suppress: bool) {
    list.create(partitions, suppress);
    list.each(QUARTER, FULL, 0.5, 3);
    list.flush(QUARTER, FULL, 0.5, 77);
    list.blocks(QUARTER, FULL, 0.5, 29);
    list.blocks(QUARTER, FULL, 0.5, 29);
    list.each(QUARTER, FULL, 0.5, 8);
    list.blocks(QUARTER, FULL, 0.5, 9);
    list.each(QUARTER, FULL, 0.5, 3);
    list.blocks(LOW, FULL, -2.0, 5);
    list.each(LOW, FULL, -2.0, 3);
    list.each(LOUD, SOUND, -2.0, 2);
    list.each(LOW, SILENCE, 0.0, 1);
    list.blocks(LOW, FAINT, -2.0, 2);
    list.flush(LOW, SOUND, -2.0, 1);
    list.flush(LOW, SOUND, -2.0, 200);
    list.blocks(LOW, SOUND, -2.0, 12);
}

/// The most partitions, from a state that is all but established.
fn most_partitions(list: &mut List) {
    let mut state = tau_reference::fresh(32, true);
    state.far.head = 29;
    state.mic.detector.dtd_blocks = 60;
    state.mic.detector.coherence_smooth = 0.9;
    list.new_with(state);
    list.each(LOW, FULL, 0.5, 4);
    list.blocks(LOW, FULL, 0.5, 6);
    list.each(LOW, FULL, 0.5, 2);
    list.flush(LOW, FULL, 0.5, 9);
    list.blocks(LOUD, FULL, 0.5, 2);
}

/// Talk, in which far is not heard: the detector protects it.
fn talk_alone(list: &mut List) {
    list.create(1, true);
    list.blocks(SOUND, SOUND, 0.0, 32);
    list.blocks(SOUND, SOUND, 0.0, 31);
    list.each(SOUND, SOUND, 0.0, 6);
    list.each(SOUND, SILENCE, 0.0, 1);
    list.blocks(SILENCE, SOUND, 0.0, 20);
    list.each(SILENCE, SOUND, 0.0, 1);
    list.blocks(FAINT, SOUND, 0.5, 10);
}

/// An echo without noise, learnt well; a loud block while far is silent, which spoils the shadow; then the echo again.
fn rescue(list: &mut List) {
    list.create(2, true);
    for _ in 0..4 {
        list.blocks(SILENCE, SOUND, 0.5, 30);
    }
    list.each(LOUD, SILENCE, 0.0, 1);
    list.each(SILENCE, SOUND, 0.5, 12);
}

/// Samples near the largest f32: an echo that turns, which no f32 error holds, and steps that no f32 holds.
fn overflow(list: &mut List) {
    let huge = 1.9 * 2f32.powi(126);
    list.create(1, true);
    list.blocks(SILENCE, FULL, huge, 64);
    list.blocks(SILENCE, FULL, huge, 20);
    list.each(SILENCE, FULL, -huge, 2);
    list.flush(SILENCE, FULL, huge, 60);
    list.each(SILENCE, FULL, huge, 2);
    list.flush(SILENCE, FULL, -huge, 60);
    list.create(2, true);
    list.each(HUGE, LOWER, 0.0, 2);
    list.flush(HUGE, LOWER, 0.0, 60);
    list.each(HUGE, HUGE, 0.0, 3);
    list.each(LOW, SOUND, 0.5, 2);
}

/// The three counters that stay at their largest number, from just below it: moves, then one in a block with the guard, then both
/// filters diverging.
fn counters(list: &mut List) {
    list.new_with(established(1));
    list.blocks(LOWER, FULL, 0.5, 12);
    list.set(|s| {
        s.mic.paths.quiet_streak = u32::MAX - 1;
        s.mic.paths.output_error_power = 1e6;
        s.mic.transfers = u64::MAX - 1;
        s.mic.divergence_resets = u64::MAX - 1;
    });
    list.each(LOWER, FULL, 0.5, 3);
    list.set(|s| {
        s.mic.guard.divergence_out_power = 1e6;
        s.mic.divergence_resets = u64::MAX;
    });
    list.each(LOWER, FULL, 0.5, 1);
    for resets in [u64::MAX - 1, u64::MAX] {
        list.set(|s| s.mic.divergence_resets = resets);
        list.make(SHADOW, INFINITE64);
        list.make(OUTPUT, INFINITE64);
        list.each(LOW, SOUND, 0.5, 1);
    }
}

/// Where a test has its bound, and where it sees a NaN. Near is silent and the weights are 0, so that errors, energies and c are too.
/// Where the detector is to learn, near is the least sound that there is: from a muted one it does not.
fn edges(list: &mut List) {
    let states: [(Kind, fn(&mut TauCanceller)); 9] = [
        // the shadow's power is 4 times the output's; and error and echo are without power
        (SILENCE, |s| s.mic.paths = Paths::default()),
        // quiet for long enough, and an output power that is not above 0
        (SILENCE, |s| s.mic.paths.output_error_power = -1e6),
        // c lies by the margin below the baseline
        (LEAST, |s| {
            s.mic.detector.dtd_baseline = 0.03;
            s.mic.detector.dtd_deviation = 0.0;
        }),
        (LEAST, |s| s.mic.detector.dtd_deviation = f64::NAN),
        // 0.8 of it is 0.2
        (LEAST, |s| s.mic.detector.coherence_smooth = 0.25),
        (LEAST, |s| s.mic.detector.coherence_smooth = f64::NAN),
        (SILENCE, |s| s.far.far_energy_peak = f64::NAN),
        (SILENCE, |s| s.far.far_energy_peak = f64::INFINITY),
        // the output's power is 1.05 times near's
        (SILENCE, |s| {
            s.mic.guard.divergence_near_power = 1.0;
            s.mic.guard.divergence_out_power = 1.05;
        }),
    ];
    for (near, change) in states {
        let mut state = established(1);
        change(&mut state);
        list.new_with(state);
        list.each(near, SOUND, 0.0, 1);
    }
    target_is_gain(list, 1, LOW);
    amid_rescue(list, 1, 5, 50);
}

fn target_is_gain(list: &mut List, partitions: usize, near: Kind) {
    list.new_with(established(partitions));
    list.make(GAIN, [0.1f64.to_bits(), 0]);
    list.make(ECHO, [1e9f64.to_bits(), 0]);
    list.each(near, SOUND, 0.0, 1);
}

/// Amid a rescue streak: the shadow diverging in a flush, which compares nothing after it; the output diverging alone; and the guard in a
/// flush, whose padded places keep the suppressor's samples.
fn amid_rescue(list: &mut List, partitions: usize, streak: u32, valid: usize) {
    let mut state = established(partitions);
    state.mic.paths.rescue_streak = streak;
    list.new_with(state);
    list.make(SHADOW, INFINITE64);
    list.flush(LOW, SOUND, 0.5, valid);
    list.new_with(state);
    list.make(SHADOW, SOUND64);
    list.make(OUTPUT, INFINITE64);
    list.each(LOW, SOUND, 0.5, 1);
    state.mic.guard.divergence_out_power = 1e9;
    list.new_with(state);
    list.make(OUTPUT, SOUND64);
    list.flush(LOW, SOUND, 0.5, valid);
}

/// Every array with numbers of every kind, and with one number that is none, at its end.
fn arrays(list: &mut List) {
    for array in [WINDOW, ERROR_WINDOW] {
        for kind in [SOUND, LARGE, INFINITE, NAN] {
            list.new_with(established(2));
            list.make(array, kind);
            list.blocks(LOW, SOUND, 0.5, 2);
        }
    }
    for array in [MEAN, ECHO, ERROR, GAIN, SHADOW, OUTPUT, SPECTRA] {
        for kind in [POWER64, LARGE64, INFINITE64, NAN64] {
            list.new_with(established(2));
            list.make(array, kind);
            list.blocks(LOW, SOUND, 0.5, 2);
        }
        let last = match array {
            MEAN | ECHO | ERROR | GAIN => BINS - 1,
            _ => 2 * NUMBERS - 1,
        };
        list.new_with(established(2));
        list.make_with(array, SUBNORMAL64, last as u64, f64::NAN.to_bits());
        list.flush(LOW, SOUND, 0.5, 33);
        list.each(LOW, SOUND, 0.5, 1);
    }
    // a block leaves the carry alone, whatever is in it
    list.make(NEAR_CARRY, NAN);
    list.make(FAR_CARRY, ANY);
    list.set(|s| s.carried = 255);
    list.each(LOW, SOUND, 0.5, 1);
}

/// The numbers of a state at random, each of those that no block leaves there.
fn numbers(list: &mut List) {
    let odd = [
        0.0,
        -0.0,
        0.2,
        0.5,
        1.0,
        -1.0,
        1e3,
        1e300,
        f64::MAX,
        f64::from_bits(1),
        f64::INFINITY,
        f64::NEG_INFINITY,
        f64::NAN,
    ];
    for turn in 0..12 {
        let mut s = established(1 + turn % 3);
        s.suppress = list.random.below(4) > 0;
        s.far.head = list.random.below(s.partitions);
        for flag in flags(&mut s) {
            *flag = list.random.below(2) > 0;
        }
        s.mic.detector.dtd_blocks = list.random.one_of(&[0, 62, 63, 64, 64]);
        s.mic.paths.quiet_streak = list.random.one_of(&[0, 4, 5, 6]);
        s.mic.paths.rescue_streak = list.random.one_of(&[0, 1, 6, 7]);
        for number in floats(&mut s) {
            if list.random.below(3) == 0 {
                *number = list.random.one_of(&odd);
            }
        }
        list.new_with(s);
        list.make(SHADOW, SOUND64);
        list.make(OUTPUT, SOUND64);
        list.blocks(LOW, SOUND, 0.5, 1 + turn % 2);
    }
}

/// Samples as a foreign carry may have them, in full blocks and in a flush, and flushes of several lengths.
fn samples(list: &mut List) {
    for kind in [SUBNORMAL, HUGE, INFINITE, NAN] {
        list.new_with(established(2));
        list.each(kind, SOUND, 0.0, 1);
        list.each(LOW, kind, 0.0, 1);
        list.flush(kind, kind, 0.0, 200);
        list.each(LOW, SOUND, 0.5, 1);
    }
    list.new_with(established(2));
    for valid in [1, 2, 128, 255] {
        list.flush(LOW, SOUND, 0.5, valid);
        list.each(LOW, SOUND, 0.5, 1);
    }
}
