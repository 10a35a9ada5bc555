//! Calls of Tau in a row, with what the Rust, completed by document 01 (oracle/rust, tau_reference.rs), gives after each. `oracle/lists`
//! writes them to crates/tau_cases/stdin, which the program `tau_cases` replays. Its src/main.rt says what the fields of a line are.
//!
//! Beside each call runs the Rust's own, on one engine from call to call, which must come to the same.

mod aspeyruni;
mod branches;
#[allow(dead_code)] // the Rust's text, whole
mod canceller;
mod config;
mod error;
#[allow(dead_code)]
mod fft;
mod house_detector;
mod inputs;
mod kinds;
mod recipe;
#[allow(dead_code)]
mod rust_tau;
mod taken;
mod tau_calls;
mod tau_lines;
mod tau_overs;
mod tau_powers;
mod tau_reasons;
mod tau_reference;

use aspeyruni::tau::*;
use aspeyruni::MAX_PAIRS;
use branches::Counts;
use inputs::{bits, halves, hash, hash32, line, turned, Random};
use kinds::*;
use recipe::{Recipe, Sounds};
use taken::Taken;
use tau_calls::REASONS;
use tau_lines::*;
use tau_reference::{sizes, Continued, Seen};

/// The sizes of the program's buffers, of which a call is lent the first part.
const MOST_NUMBERS: usize = 16456;
const MOST_POWERS: usize = 8232;
const MOST_LENT: [usize; 4] = [MOST_NUMBERS, MOST_NUMBERS, MOST_NUMBERS, MOST_POWERS];
const MOST_PAIRS: usize = 4104;

/// The lines so far, and what they leave to the next.
struct List {
    text: String,
    random: Random,
    state: TauCanceller,
    buffers: [Vec<f64>; 4],
    /// How much is lent of them.
    lent: [usize; 4],
    continued: Continued,
    counts: Counts,
    /// How many calls there are of each letter, how many answers, and the last.
    calls: [usize; 4],
    answers: [usize; 7],
    refusal: u32,
    /// How many answers of process and flush there are by their reason, from creation and from a state that a line set, and the last.
    reasons: [[usize; 2]; REASONS.len()],
    reason: u32,
    /// How many have something that went over, by the same, how many went over in the last, and the blocks of the last call.
    over: [usize; 2],
    overs: u32,
    blocks: Vec<Taken>,
}

/// Those of the calls after so many pairs, which go on where the noise is.
fn after(sounds: Sounds, count: usize) -> Sounds {
    sounds.seeded(|recipe| (0..count).fold(recipe.seed, |word, _| turned(word)))
}

/// The numbers of the state that are in no array, but for the settings, as after an echo that was learnt.
fn learnt(s: &mut TauCanceller) {
    let known = established(s.partitions);
    s.carried = 0;
    s.far = Far {
        window: s.far.window,
        ..known.far
    };
    s.mic = Mic {
        far_power_mean: s.mic.far_power_mean,
        suppressor: s.mic.suppressor,
        ..known.mic
    };
}

/// A call's blocks, counted and kept.
fn watch<'a>(counts: &'a mut Counts, blocks: &'a mut Vec<Taken>) -> impl FnMut(Seen) + 'a {
    blocks.clear();
    |seen| {
        blocks.push(seen.taken);
        counts.see(seen);
    }
}

impl List {
    fn seed(&mut self) -> u64 {
        self.random.word()
    }

    /// The state that a call left is the next one's.
    fn line(&mut self, letter: char, given: [u64; 8], room: usize, answer: Answer, heard: u64) {
        self.state = answer.state;
        let [i, j, k, powers] = self.lent;
        let buffers = lend(&mut self.buffers, self.lent).map(|buffer| &*buffer);
        let kept = fields(&answer.state, buffers);
        let verdict = [answer.double_talk as usize, answer.outcome as usize];
        let first = [halves(verdict), bits(answer.leak), heard];
        let last = [
            halves([i, j]),
            halves([k, room]),
            halves([answer.refusal as usize, answer.delivered]),
            answer.transfers,
            answer.divergence_resets,
            halves([answer.reason as usize, answer.overs as usize]),
            powers as u64,
            hash(buffers[3]),
        ];
        let fields = given.iter().chain(&first).chain(&kept).chain(&last);
        self.text += &line(letter, fields);
        self.count(letter, &answer);
    }

    fn count(&mut self, letter: char, answer: &Answer) {
        (self.reason, self.overs) = (answer.reason, answer.overs);
        self.refusal = answer.refusal;
        if let Some(call) = "cpfr".find(letter) {
            self.calls[call] += 1;
            self.answers[answer.refusal as usize] += 1;
        }
        if "pf".contains(letter) {
            let foreign = usize::from(self.counts.is_foreign);
            self.reasons[answer.reason as usize][foreign] += 1;
            self.over[foreign] += usize::from(answer.overs > 0);
        }
    }

    /// The Rust's own engine stands where the calls do.
    fn check(&mut self) {
        if self.state.partitions == 0 {
            return;
        }
        let lent = lend(&mut self.buffers, sizes(self.state.partitions));
        let buffers = lent.map(|buffer| &*buffer);
        assert!(self.continued.is_at(&self.state, buffers));
    }

    /// The Rust's own engine from what a line set.
    fn continue_from_here(&mut self) {
        let s = &self.state;
        if (1..=32).contains(&s.partitions) && s.far.head < s.partitions && s.carried < BLOCK {
            let lent = lend(&mut self.buffers, sizes(s.partitions));
            self.continued = Continued::from(s, lent);
        }
    }

    fn create_any(&mut self, partitions: usize, suppress: bool) {
        let lent = lend(&mut self.buffers, self.lent);
        let started = tau_reference::create(partitions, suppress, lent);
        let given = [partitions as u64, suppress.into(), 0, 0, 0, 0, 0, 0];
        self.line('c', given, 0, started.whole(), 0);
        if started.refusal == 0 {
            self.continued = Continued::created(partitions, suppress);
            self.counts.is_foreign = false;
            self.counts.has_diverged = false;
            self.check();
        }
    }

    /// With as much of each as it takes.
    fn create(&mut self, partitions: usize, suppress: bool) {
        self.lent = sizes(partitions);
        self.create_any(partitions, suppress);
    }

    fn process_any(&mut self, sounds: Sounds, [given, heard]: [usize; 2], room: usize) {
        // as far as the program's buffers go, of which a call is given a part
        let [near, far] = sounds.samples(MOST_PAIRS);
        let (near, far) = (&near[..given], &far[..heard]);
        let mut out = Recipe::noise(1, FULL).samples(room);
        let lent = lend(&mut self.buffers, self.lent);
        let answer = tau_reference::process(
            &self.state,
            lent,
            near,
            far,
            &mut out,
            &mut watch(&mut self.counts, &mut self.blocks),
        );
        let hash = hash32(&out);
        self.line('p', sounds.fields([given, heard]), room, answer, hash);
        if answer.refusal == 0 {
            let samples = self.continued.process(near, far);
            self.agree(answer, &out, &samples);
        }
    }

    /// What the Rust's own call delivers, and what it reports.
    fn agree(&mut self, answer: Answer, out: &[f32], samples: &[f32]) {
        assert_eq!(answer.delivered, samples.len());
        assert_eq!(hash32(&out[..samples.len()]), hash32(samples));
        assert!(self.continued.reports(&answer));
        self.check();
    }

    /// So many pairs, with room for a few samples more than it delivers.
    fn pairs(&mut self, sounds: Sounds, count: usize) {
        let delivers = (self.state.carried + count) / BLOCK * BLOCK;
        self.process_any(sounds, [count; 2], delivers + 3);
    }

    /// So many blocks of pairs, in calls as long as they may be.
    fn long(&mut self, mut sounds: Sounds, blocks: usize) {
        let mut left = blocks * BLOCK;
        while left > 0 {
            let count = left.min(MAX_PAIRS);
            self.pairs(sounds, count);
            sounds = after(sounds, count);
            left -= count;
        }
    }

    fn noise(&mut self, near: Kind, far: Kind, gain: f32) -> Sounds {
        Sounds::noise(&mut self.random, near, far, gain)
    }

    fn kinds(&mut self, near: Kind, far: Kind, gain: f32, count: usize) {
        let sounds = self.noise(near, far, gain);
        self.pairs(sounds, count);
    }

    /// So many pairs in cuts.
    fn cuts(&mut self, near: Kind, far: Kind, gain: f32, count: usize) {
        let mut sounds = self.noise(near, far, gain);
        let mut left = count;
        while left > 0 {
            let any = self.random.below(4_097);
            let more = 2_048 + self.random.below(2_049);
            let short = self.random.one_of(&[0, 1, 255, 256, 257, 600]);
            let some = [short, 4_096, 4_096, any, more, more, more, more];
            let cut = self.random.one_of(&some).min(left);
            self.pairs(sounds, cut);
            sounds = after(sounds, cut);
            left -= cut;
        }
    }

    fn flush_in(&mut self, room: usize) {
        let mut out = Recipe::noise(1, FULL).samples(room);
        let lent = lend(&mut self.buffers, self.lent);
        let answer = tau_reference::flush(
            &self.state,
            lent,
            &mut out,
            &mut watch(&mut self.counts, &mut self.blocks),
        );
        let hash = hash32(&out);
        self.line('f', [0; 8], room, answer, hash);
        if answer.refusal == 0 {
            let samples = self.continued.flush();
            self.agree(answer, &out, &samples);
        }
    }

    fn flush(&mut self) {
        self.flush_in((self.state.carried + 3).min(MOST_PAIRS));
    }

    fn reset(&mut self) {
        let lent = lend(&mut self.buffers, self.lent);
        let started = tau_reference::reset(&self.state, lent);
        self.line('r', [0; 8], 0, started.whole(), 0);
        if started.refusal == 0 {
            self.continued.reset();
            self.counts.has_diverged = false;
            self.check();
        }
    }

    /// No call: numbers of the state that are in no array.
    fn set(&mut self, change: impl Fn(&mut TauCanceller)) {
        let mut state = self.state;
        change(&mut state);
        let unanswered = Started { refusal: 0, state }.whole();
        self.line('s', [0; 8], 0, unanswered, 0);
        self.counts.is_foreign = true;
        self.continue_from_here();
    }

    /// No call: an array, of which one number is of its own where the array has the place.
    fn make_with(&mut self, array: u64, kind: Kind, place: u64, mark: u64) {
        let noise = Recipe64::noise(self.seed(), kind);
        self.make_by(array, noise.with(place, mark));
    }

    fn make_by(&mut self, array: u64, recipe: Recipe64) {
        let mut state = self.state;
        recipe.make(array, &mut state, lend(&mut self.buffers, self.lent));
        let unanswered = Started { refusal: 0, state }.whole();
        self.line('a', recipe.fields(array), 0, unanswered, 0);
        self.counts.is_foreign = true;
        self.continue_from_here();
    }

    fn make(&mut self, array: u64, kind: Kind) {
        self.make_with(array, kind, u64::MAX, 0);
    }

    /// To standard error, with an end where a branch or a reason has no case.
    fn tell(&self) {
        self.counts.tell_all_taken();
        let [c, p, f, r] = self.calls;
        eprintln!("{c} calls of create, {p} of process, {f} of flush, {r} of reset");
        eprintln!("answers 0 to 6: {:?}", self.answers);
        eprintln!("reasons 0 to 9, own and foreign: {:?}", self.reasons);
        assert!(self.reasons.iter().flatten().all(|count| *count > 0));
        let [own, foreign] = self.over;
        eprintln!("answers with something over, own and foreign: {own}, {foreign}");
        let (blocks, bytes) = (self.counts.blocks(), self.text.len());
        eprintln!("{blocks} blocks, {bytes} bytes");
    }

    /// Created, and all but the arrays as after an echo that was learnt.
    fn established(&mut self, partitions: usize, suppress: bool) {
        self.create(partitions, suppress);
        self.set(learnt);
    }
}

fn main() {
    let mut list = List {
        text: String::new(),
        random: Random(0x2545_f491_4f6c_dd1d),
        state: tau_reference::fresh(1, false),
        buffers: MOST_LENT.map(|n| vec![0.0; n]),
        lent: sizes(1),
        continued: Continued::created(1, false),
        counts: Counts::none(),
        calls: [0; 4],
        answers: [0; 7],
        refusal: 0,
        reasons: [[0; 2]; REASONS.len()],
        reason: 0,
        over: [0; 2],
        overs: 0,
        blocks: Vec::new(),
    };
    all(&mut list);
    list.tell();
    print!("{}", list.text);
}

fn all(list: &mut List) {
    settings(list);
    lengths(list);
    for (partitions, suppress) in [
        (1, true),
        (2, false),
        (3, true),
        (4, true),
        (8, false),
        (13, true),
    ] {
        stream(list, partitions, suppress);
    }
    for (partitions, suppress) in [
        (1, false),
        (2, true),
        (3, false),
        (4, false),
        (8, true),
        (13, false),
        (32, true),
        (32, false),
    ] {
        late(list, partitions, suppress);
    }
    same_cuts(list);
    samples(list);
    carries(list);
    counters(list);
    outcomes(list);
    foreign(list);
    refused_states(list);
    refused_lengths(list);
    later(list);
}

/// At the end, so that the lines before them keep their seeds.
fn later(list: &mut List) {
    reset_streaks(list);
    refused_without_pairs(list);
    muted(list);
    tau_reasons::all(list);
    tau_overs::all(list);
    tau_powers::all(list);
}

/// Creations over buffers that hold something, refused and not, and calls on the state that a refused one gives.
fn settings(list: &mut List) {
    for array in [SHADOW, OUTPUT, SPECTRA] {
        list.make(array, SOUND64);
    }
    list.create_any(1, true);
    list.lent = MOST_LENT;
    list.make(SHADOW, SOUND64);
    for partitions in [0, 33, usize::MAX] {
        list.create_any(partitions, true);
    }
    list.flush();
    list.reset();
    list.kinds(FULL, FULL, 0.0, 1);
    for (partitions, lent) in [
        (2, [1_027, 1_028, 1_028, 514]),
        (2, [1_028, 1_029, 1_028, 514]),
        (2, [1_028, 1_028, 0, 514]),
        (32, [16_449, 16_449, 16_449, 8_224]),
        (33, [0; 4]),
    ] {
        list.lent = lent;
        list.create_any(partitions, false);
    }
    list.create(32, false);
    list.create(2, true);
}

/// M12: after 255 pairs 0 delivered; after 256, 256; after 600, 512, then flush gives 88. And the most pairs after 255, which deliver
/// 4,096 samples, and calls of none.
fn lengths(list: &mut List) {
    list.create(1, true);
    list.kinds(QUARTER, FULL, 0.5, 255);
    list.kinds(QUARTER, FULL, 0.5, 1);
    list.reset();
    list.kinds(QUARTER, FULL, 0.5, 600);
    list.flush();
    list.flush();
    list.kinds(QUARTER, FULL, 0.5, 0);
    list.kinds(QUARTER, FULL, 0.5, 255);
    list.kinds(QUARTER, FULL, 0.5, 4_096);
    list.kinds(QUARTER, FULL, 0.5, 0);
    list.flush();
}

/// Sound in the room alone; an echo to learn in cuts, from creation past the first moves; talk over it; the echo turned and louder, to
/// which the output adds, until the guard halves it; flushes between; a reset; and the echo again.
fn stream(list: &mut List, partitions: usize, suppress: bool) {
    list.create(partitions, suppress);
    list.kinds(SOUND, SILENCE, 0.0, 300);
    list.flush();
    list.cuts(QUARTER, FULL, 0.5, 30 * BLOCK + 77);
    list.flush();
    list.cuts(QUARTER, FULL, 0.5, 48 * BLOCK);
    list.cuts(LOUD, SOUND, 0.5, 3 * BLOCK);
    list.cuts(LOW, FULL, -2.0, 10 * BLOCK);
    list.kinds(LOW, SILENCE, 0.0, 300);
    list.reset();
    list.cuts(QUARTER, FULL, 0.5, 1_000);
    list.flush();
}

/// The same from a state that is all but established.
fn late(list: &mut List, partitions: usize, suppress: bool) {
    list.create(partitions, suppress);
    list.set(|s| {
        s.far.head = partitions / 2;
        s.mic.detector.dtd_blocks = 60;
        s.mic.detector.coherence_smooth = 0.9;
    });
    list.cuts(LOW, FULL, 0.5, 13 * BLOCK + 9);
    list.flush();
    list.kinds(LOUD, FULL, 0.5, 600);
    list.flush();
    list.reset();
    list.kinds(LOW, FULL, 0.5, 257);
}

/// The same pairs in one call and in several: the states after are the same.
fn same_cuts(list: &mut List) {
    list.create(3, true);
    let sounds = list.noise(QUARTER, FULL, 0.5);
    for cuts in [vec![1_000], vec![255, 1, 256, 1, 487], vec![999, 0, 1]] {
        let mut next = sounds;
        list.reset();
        for count in cuts {
            list.pairs(next, count);
            next = after(next, count);
        }
    }
    list.flush();
}

/// Samples of every kind: what is not finite is 0.0 from the push on, near and far apart, and the largest diverge.
fn samples(list: &mut List) {
    list.create(2, true);
    for (near, far) in [
        (NAN, FULL),
        (FULL, NAN),
        (INFINITE, INFINITE),
        (ANY, ANY),
        (SUBNORMAL, SUBNORMAL),
        (HUGE, LOWER),
        (LARGE, LARGE),
        (QUARTER, HUGE),
    ] {
        list.kinds(near, far, 0.0, 700);
    }
    list.flush();
    // an echo that turns, which no f32 error holds
    let huge = 1.9 * 2f32.powi(126);
    list.create(1, true);
    for _ in 0..6 {
        list.kinds(SILENCE, FULL, huge, 3_840);
    }
    list.kinds(SILENCE, FULL, -huge, 400);
    list.flush();
    list.kinds(SILENCE, FULL, huge, 300);
    list.flush();
    // one sample that is none amid sound, and -0.0, which is one
    list.established(2, true);
    let mut sounds = list.noise(LOW, FULL, 0.0);
    sounds.near = sounds.near.marked(3, f32::NAN);
    sounds.far = sounds.far.marked(4, f32::NEG_INFINITY);
    list.pairs(sounds, 10);
    sounds.near = sounds.near.marked(255, -0.0);
    list.pairs(sounds, 256);
    list.flush();
}

/// Carries that no call leaves. What waits there is not cleaned, nor is what lies beyond, which a call writes over or keeps.
fn carries(list: &mut List) {
    list.established(2, true);
    for kind in [NAN, ANY] {
        list.make(NEAR_CARRY, kind);
        list.make(FAR_CARRY, kind);
        list.kinds(LOW, SOUND, 0.5, 2);
        list.set(|s| s.carried = 254);
        list.kinds(LOW, SOUND, 0.5, 3);
        list.flush();
    }
    // C1: one that waits, and is no number
    list.create(1, true);
    list.make_with(NEAR_CARRY, SILENCE, 0, f32::NAN.to_bits().into());
    list.set(|s| s.carried = 1);
    list.flush();
    list.make(FAR_CARRY, SOUND);
    list.set(|s| s.carried = 255);
    list.flush();
    list.reset();
    list.kinds(LOW, SOUND, 0.5, 30);
    list.flush();
}

/// The three counters that stay at their largest number: moves in a call of several blocks, then both filters diverging, a refusal,
/// and a reset, which keeps two of them.
fn counters(list: &mut List) {
    list.established(1, true);
    list.kinds(LOWER, FULL, 0.5, 12 * BLOCK);
    list.set(|s| {
        s.mic.paths.quiet_streak = u32::MAX - 1;
        s.mic.paths.output_error_power = 1e6;
        s.mic.transfers = u64::MAX - 1;
        s.mic.divergence_resets = u64::MAX - 1;
    });
    list.kinds(LOWER, FULL, 0.5, 3 * BLOCK);
    list.kinds(LOWER, FULL, 0.5, 0);
    list.make(SHADOW, INFINITE64);
    list.make(OUTPUT, INFINITE64);
    list.kinds(LOW, SOUND, 0.5, 300);
    list.process_any(ones(), [2, 1], 300);
    list.reset();
    list.kinds(LOW, SOUND, 0.5, 300);
}

/// Where a call is to be refused, or its samples do not matter.
fn ones() -> Sounds {
    Sounds {
        near: Recipe::of(1.0),
        far: Recipe::of(1.0),
        gain: 0.0,
    }
}

/// States that no call leaves: arrays and buffers of any floats, and numbers at random.
fn foreign(list: &mut List) {
    for (array, kind) in [
        (WINDOW, NAN),
        (ERROR_WINDOW, LARGE),
        (MEAN, NAN64),
        (ECHO, LARGE64),
        (ERROR, INFINITE64),
        (GAIN, NAN64),
        (SHADOW, NAN64),
        (OUTPUT, SUBNORMAL64),
        (SPECTRA, INFINITE64),
    ] {
        list.established(2, true);
        list.make(array, kind);
        list.kinds(LOW, SOUND, 0.5, 600);
    }
    list.flush();
    let odd = [0.0, -0.0, 0.2, -1.0, 1e300, f64::INFINITY, f64::NAN];
    for turn in 0..5 {
        let mut s = established(1 + turn % 3);
        s.suppress = turn % 2 > 0;
        s.carried = list.random.below(BLOCK);
        s.far.head = list.random.below(s.partitions);
        for flag in flags(&mut s) {
            *flag = list.random.below(2) > 0;
        }
        s.mic.detector.dtd_blocks = list.random.one_of(&[0, 62, 63, 64, 64]);
        s.mic.paths.rescue_streak = list.random.one_of(&[0, 1, 6, 7]);
        for number in [
            &mut s.far.far_energy_peak,
            &mut s.mic.detector.dtd_baseline,
            &mut s.mic.detector.step_scale,
            &mut s.mic.paths.shadow_error_power,
            &mut s.mic.guard.divergence_near_power,
            &mut s.mic.powers.near_power,
        ] {
            if list.random.below(2) == 0 {
                *number = list.random.one_of(&odd);
            }
        }
        list.create(s.partitions, s.suppress);
        list.set(|state| *state = s);
        list.make(OUTPUT, SOUND64);
        list.kinds(LOW, SOUND, 0.5, 300);
    }
    list.flush();
}

/// What the comparison comes to, by the powers before it: a rescue, a move by less than the most, none, and a move with the guard; then
/// all of them in one call, which reports the last.
fn outcomes(list: &mut List) {
    let powers: [(f64, f64, f64); 4] = [
        (1e9, 1.0, 1.0),
        (1e6, 1.25e6, 1.0),
        (1e6, 1e6, 1.0),
        (1.0, 1e6, 1e6),
    ];
    list.established(2, true);
    list.kinds(LOWER, FULL, 0.5, 5 * BLOCK);
    for (shadow, output, delivered) in powers {
        list.set(|s| {
            s.mic.detector.coherence_smooth = 0.9;
            s.mic.detector.dtd_baseline = 0.0;
            s.mic.paths = Paths {
                shadow_error_power: shadow,
                output_error_power: output,
                quiet_streak: 9,
                rescue_streak: 7,
            };
            s.mic.guard.divergence_out_power = delivered;
            s.mic.divergence_resets = u64::MAX;
        });
        list.kinds(LOWER, FULL, 0.5, BLOCK);
    }
    list.kinds(LOWER, FULL, 0.5, 3 * BLOCK + 10);
    list.flush();
}

/// Every number out of its range, alone and where all else is wrong too.
fn refused_states(list: &mut List) {
    let states: [fn(&mut TauCanceller); 10] = [
        |s| s.partitions = 0,
        |s| s.partitions = 33,
        |s| s.partitions = u32::MAX as usize,
        |s| s.far.head = 2,
        |s| s.far.head = u32::MAX as usize,
        |s| s.partitions = 1,
        |s| s.carried = 256,
        |s| s.carried = u32::MAX as usize,
        |s| s.mic.paths.rescue_streak = 8,
        |s| s.mic.detector.dtd_blocks = 65,
    ];
    list.established(2, true);
    let right = list.state;
    for (i, change) in states.into_iter().enumerate() {
        list.set(|s| {
            *s = right;
            s.far.head = 1;
            s.carried = 7;
            s.mic.transfers = 3;
            s.mic.detector.double_talk = true;
            change(s);
        });
        list.lent = [sizes(2), [1_027, 0, 514, 514]][i % 2];
        match i % 3 {
            0 => list.flush_in(0),
            1 => list.reset(),
            _ => list.process_any(ones(), [4_098, 4_097], 0),
        }
    }
    // at the ends of the ranges
    for (partitions, carried, streak, count) in [(1, 0, 0, 0), (32, 255, 7, 64)] {
        list.create(partitions, true);
        list.set(|s| {
            s.far.head = partitions - 1;
            s.carried = carried;
            s.mic.paths.rescue_streak = streak;
            s.mic.detector.dtd_blocks = count;
        });
        list.kinds(LOW, FULL, 0.5, 2);
        list.flush();
        list.reset();
    }
}

/// Lengths of near and far, and of the output buffer, with 200 carried, for refusals 3, 4 and 5, each alone and before those after it;
/// then what is right.
const LENGTHS: [([usize; 2], usize); 13] = [
    ([1, 0], 300),
    ([56, 55], 0),
    ([4_097, 4_096], 4_104),
    ([4_098, 4_097], 0),
    ([4_097, 4_097], 4_104),
    ([4_104, 4_104], 0),
    ([56, 56], 255),
    ([56, 56], 0),
    ([4_096, 4_096], 4_095),
    ([55, 55], 0),
    ([1, 1], 256),
    ([0, 0], 0),
    ([4_096, 4_096], 4_096),
];

/// Refusal 2, alone and before those after it, then the others.
fn refused_lengths(list: &mut List) {
    list.established(2, true);
    list.kinds(LOW, FULL, 0.5, 200);
    let right = list.lent;
    for (i, lent) in [
        [1_027, 1_028, 1_028, 514],
        [1_028, 1_029, 1_028, 514],
        [1_028, 1_028, 0, 514],
        [0; 4],
    ]
    .into_iter()
    .enumerate()
    {
        list.lent = lent;
        match i {
            0 => list.flush(),
            1 => list.reset(),
            2 => list.flush_in(0),
            _ => list.process_any(ones(), [4_098, 4_097], 0),
        }
    }
    list.lent = [1_028, 1_028, 1_029, 514];
    list.process_any(ones(), [2, 2], 256);
    list.lent = right;
    list.flush_in(199);
    list.flush_in(0);
    for (pairs, room) in LENGTHS {
        list.process_any(ones(), pairs, room);
    }
    list.flush_in(list.state.carried);
    list.flush_in(0);
}

/// Both streaks are the fresh state's after a reset.
fn reset_streaks(list: &mut List) {
    for (rescue, quiet) in [(1, 0), (7, 5)] {
        list.create(1, true);
        list.set(|s| {
            s.mic.paths.rescue_streak = rescue;
            s.mic.paths.quiet_streak = quiet;
        });
        list.reset();
    }
}

/// Process of no pairs is refused as any other: 2 by each of the buffers, and 6 by each of the numbers that have a range.
fn refused_without_pairs(list: &mut List) {
    for buffer in 0..3 {
        list.create(1, true);
        list.lent[buffer] = NUMBERS - 1;
        list.process_any(ones(), [0, 0], 0);
    }
    let states: [fn(&mut TauCanceller); 5] = [
        |s| s.carried = 256,
        |s| s.partitions = 33,
        |s| s.far.head = 1,
        |s| s.mic.paths.rescue_streak = 8,
        |s| s.mic.detector.dtd_blocks = 65,
    ];
    for change in states {
        list.create(1, true);
        list.set(change);
        list.process_any(ones(), [0, 0], 0);
    }
}

/// A microphone that is muted, over calls: near is 0.0, or no number, which is read so (request K5).
fn muted(list: &mut List) {
    let mute = |list: &mut List, near: f32, far: Kind| Sounds {
        near: Recipe::of(near),
        far: Recipe::noise(list.seed(), far),
        gain: 0.0,
    };
    // joining muted for 80 blocks, and the echo past the first moves
    list.create(2, true);
    for _ in 0..5 {
        let sounds = mute(list, 0.0, FULL);
        list.pairs(sounds, MAX_PAIRS);
    }
    for _ in 0..5 {
        list.kinds(LOW, FULL, 0.5, MAX_PAIRS);
    }
    // a mute in mid-call, by NaNs, with a pause of the film in it, and a flush of zeros
    for (near, far) in [(f32::NAN, FULL), (-0.0, SILENCE), (0.0, FULL)] {
        let sounds = mute(list, near, far);
        list.pairs(sounds, 2 * BLOCK + 7);
    }
    list.flush();
    list.kinds(LOW, FULL, 0.5, 3 * BLOCK);
    // a NaN that waits in the carry is no zero, so that block is not muted
    list.established(1, true);
    list.make_with(NEAR_CARRY, SILENCE, 0, f32::NAN.to_bits().into());
    list.set(|s| s.carried = 1);
    let sounds = mute(list, 0.0, FULL);
    list.pairs(sounds, 2 * BLOCK);
    list.flush();
}
