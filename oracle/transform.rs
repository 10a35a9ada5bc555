//! The transform, the port against the Rust: every number's bits, NaN equal to NaN, and how many samples of an inverse went over.

mod aspeyruni;
mod fft;
mod inputs;
mod reference;
mod tally;

use aspeyruni::{complex_forward, complex_inverse};
use inputs::{Noise, Random, DIGITS, DIGITS32, SIGN, SIGN32, SIZES, SIZES32};
use reference::{Reference, POINTS, SAMPLES, SPECTRUM, WRONG_LENGTH};
use std::array::from_fn;
use tally::Tally;

/// So many transforms of each kind of numbers.
const ROUNDS: usize = 2_000;

#[derive(Clone, Copy)]
enum Kind {
    /// Noise, by base and mask, of f64s and of f32s.
    Bits([u64; 2], [u64; 2]),
    /// Sound, with one number in 64 from `STRANGE`.
    Strewn,
    /// A sine of any pitch.
    Tone,
}

const SILENCE: Kind = Kind::Bits([0, SIGN], [0, SIGN32]);
const SOUND: Kind = Kind::Bits(
    [0x3ff << 52, SIGN | SIZES | DIGITS],
    [0x7f << 23, SIGN32 | SIZES32 | DIGITS32],
);
const BELOW_TWO: Kind = Kind::Bits([0, !(1 << 62)], [0, !(1 << 30)]);
/// NaN with any payload among them.
const ANY: Kind = Kind::Bits([0, !0], [0, !0]);
const SUBNORMAL: Kind = Kind::Bits([0, SIGN | DIGITS], [0, SIGN32 | DIGITS32]);
/// From the subnormals to 2^-1007, and to 2^-111 as f32.
const SMALL: Kind = Kind::Bits([0, SIGN | SIZES | DIGITS], [0, SIGN32 | SIZES32 | DIGITS32]);
/// f64s whose sums overflow, and f32s whose sums do not, being f64s.
const HUGE: Kind = Kind::Bits(
    [0x7fe << 52, SIGN | DIGITS],
    [0xfe << 23, SIGN32 | DIGITS32],
);
/// About the largest f32, so that some overflow where they are narrowed.
const LARGE: Kind = Kind::Bits(
    [0x47f << 52, SIGN | SIZES | DIGITS],
    [0xfe << 23, SIGN32 | SIZES32 | DIGITS32],
);
const INFINITE: Kind = Kind::Bits([0x7ff << 52, SIGN], [0xff << 23, SIGN32]);

/// Of inverses alone: f64s of which some samples go over, of which most do, and of which some points are infinite and not counted.
const OVER: [Kind; 3] = [
    Kind::Bits([0x482 << 52, SIGN | DIGITS], [0; 2]),
    Kind::Bits([0x486 << 52, SIGN | DIGITS], [0; 2]),
    Kind::Bits([0x7fa << 52, SIGN | DIGITS], [0; 2]),
];

const KINDS: [Kind; 11] = [
    SILENCE,
    SOUND,
    BELOW_TWO,
    ANY,
    SUBNORMAL,
    SMALL,
    HUGE,
    LARGE,
    INFINITE,
    Kind::Strewn,
    Kind::Tone,
];

const STRANGE: [f64; 8] = [
    f64::NAN,
    f64::INFINITY,
    f64::NEG_INFINITY,
    f64::MAX,
    f64::MIN_POSITIVE,
    f32::MAX as f64,
    f32::MIN_POSITIVE as f64,
    -0.0,
];

impl Random {
    fn numbers<const N: usize>(&mut self, kind: Kind) -> [f64; N] {
        let word = self.seed();
        match kind {
            Kind::Bits([base, mask], _) => {
                let mut noise = Noise { word, base, mask };
                from_fn(|_| noise.number())
            }
            Kind::Strewn => {
                let mut sound = Noise::sound(word);
                from_fn(|_| {
                    let x = sound.number();
                    let choice = self.word();
                    if choice >> 58 == 0 {
                        STRANGE[choice as usize % STRANGE.len()]
                    } else {
                        x
                    }
                })
            }
            Kind::Tone => {
                let step = (word >> 11) as f64 / 2f64.powi(53) * std::f64::consts::PI;
                from_fn(|i| (step * i as f64).sin())
            }
        }
    }

    fn samples(&mut self, kind: Kind) -> [f32; SAMPLES] {
        if let Kind::Bits(_, [base, mask]) = kind {
            let word = self.seed();
            let mut noise = Noise { word, base, mask };
            return from_fn(|_| noise.sample());
        }
        self.numbers(kind).map(|x| x as f32)
    }
}

fn main() {
    let mut random = Random(0x9e37_79b9_7f4a_7c15);
    let mut rust = Reference::new();
    forward(&mut random, &mut rust).tell("forward");
    inverse(&mut random, &mut rust).tell();
    let forwards = (complex_forward as Port, Reference::complex_forward as Rust);
    complex(&mut random, &mut rust, forwards).tell("complex forward");
    let inverses = (complex_inverse as Port, Reference::complex_inverse as Rust);
    complex(&mut random, &mut rust, inverses).tell("complex inverse");
    refusals(&mut random).tell("refusals");
}

fn forward(random: &mut Random, rust: &mut Reference) -> Tally {
    let mut tally = Tally::default();
    for kind in KINDS {
        for _ in 0..ROUNDS {
            let input = random.samples(kind);
            let mut here: [f64; SPECTRUM] = random.numbers(SOUND);
            let mut there = here;
            tally.answer(
                aspeyruni::forward(&input, &mut here),
                rust.forward(&input, &mut there),
            );
            tally.all(&here, &there);
        }
    }
    tally
}

/// The samples, and the calls by how many of them went over: none, some, and all.
#[derive(Default)]
struct Inverses {
    samples: Tally,
    overs: [Tally; 3],
}

impl Inverses {
    fn tell(&self) {
        self.samples.tell("inverse");
        for (name, tally) in ["none", "some", "all"].iter().zip(&self.overs) {
            tally.tell_calls(&format!("inverse, {name} over"));
        }
    }

    fn one(&mut self, spectrum: &[f64; SPECTRUM], random: &mut Random, rust: &mut Reference) {
        let mut here = random.samples(SOUND);
        let mut there = here;
        let port = aspeyruni::inverse(spectrum, &mut here);
        let rust = rust.inverse(spectrum, &mut there);
        self.samples.answer(port.refusal, rust.refusal);
        self.samples.samples(&here, &there);
        let kind = match rust.overs {
            0 => 0,
            SAMPLES => 2,
            _ => 1,
        };
        self.overs[kind].call(port.overs == rust.overs);
    }
}

/// Of numbers of each kind, and of what forward gives of such.
fn inverse(random: &mut Random, rust: &mut Reference) -> Inverses {
    let mut inverses = Inverses::default();
    for kind in KINDS {
        for _ in 0..ROUNDS {
            let mut spectrum: [f64; SPECTRUM] = random.numbers(kind);
            inverses.one(&spectrum, random, rust);
            rust.forward(&random.samples(kind), &mut spectrum);
            inverses.one(&spectrum, random, rust);
        }
    }
    for kind in OVER {
        for _ in 0..ROUNDS {
            let spectrum: [f64; SPECTRUM] = random.numbers(kind);
            inverses.one(&spectrum, random, rust);
        }
    }
    inverses
}

type Port = fn(&mut [f64]) -> u32;
type Rust = fn(&mut Reference, &mut [f64]) -> u32;

fn complex(random: &mut Random, rust: &mut Reference, (port, same): (Port, Rust)) -> Tally {
    let mut tally = Tally::default();
    for kind in KINDS {
        for _ in 0..ROUNDS {
            let mut here: [f64; POINTS] = random.numbers(kind);
            let mut there = here;
            tally.answer(port(&mut here), same(rust, &mut there));
            tally.all(&here, &there);
        }
    }
    tally
}

/// Every pair of lengths of which one is wrong, on numbers without NaN, so that bits are compared. The
/// Rust panics there: the answer 2 and the buffers as they were are document 01's.
fn refusals(random: &mut Random) -> Tally {
    let lengths = [
        0, 1, 2, 255, 256, 257, 510, 511, 512, 513, 514, 515, 1023, 1024,
    ];
    let mut tally = Tally::default();
    for given in lengths {
        for room in lengths {
            let wide: [f64; 1024] = random.numbers(BELOW_TWO);
            let short = wide.map(|x| x as f32);
            if (given, room) != (SAMPLES, SPECTRUM) {
                let mut out = wide;
                let answer = aspeyruni::forward(&short[..given], &mut out[..room]);
                tally.answer(answer, WRONG_LENGTH);
                tally.all(&out, &wide);
            }
            if (given, room) != (SPECTRUM, SAMPLES) {
                let mut out = short;
                let answer = aspeyruni::inverse(&wide[..given], &mut out[..room]);
                tally.answer(answer.refusal, WRONG_LENGTH);
                tally.call(answer.overs == 0);
                tally.samples(&out, &short);
            }
            if given == room && given != POINTS {
                let mut points = wide;
                tally.answer(complex_forward(&mut points[..given]), WRONG_LENGTH);
                tally.answer(complex_inverse(&mut points[..given]), WRONG_LENGTH);
                tally.all(&points, &wide);
            }
        }
    }
    tally
}
