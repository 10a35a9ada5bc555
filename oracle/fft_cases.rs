//! Cases for the transform and its table, with the answers that the Rust gives. `oracle/lists` writes
//! them to crates/fft_cases/stdin, which the program `fft_cases` replays. Its src/main.rt says what the
//! fields of a line are.
//!
//!     f  forward      g  over a lent table      c  complex forward
//!     i  inverse      j  over a lent table      r  complex inverse (the reverse)
//!     h  the first half of what j gives         l  the later half
//!     b  both: forward, then inverse of what it gave
//!     a  det_cos and det_sin of an angle       t  two numbers of the table
//!
//! In lower case a transform is run on noise, in upper case on a tone. The Rust lends no table: `g`
//! and `j` have the answers of `f` and `i`, and `h` and `l` a half of `i`'s. It panics at a wrong length: that the answer is 2 and
//! nothing is written is document 01's rule. How many samples of an inverse went over is counted over all 512, by `h` and `l` too
//! (oracle/rust).

mod fft;
mod inputs;
mod reference;

use fft::{read_det_cos, read_det_sin, read_recombination};
use inputs::{bits, hash, line, turned, Noise, DIGITS, SIGN, SIZES};
use reference::{Inverted, Reference, DONE, POINTS, SAMPLES, SPECTRUM, WRONG_LENGTH};
use std::f64::consts::PI;

/// The size of the buffers, of which a case lends the first part.
const COUNT: usize = 1024;

/// Of the inverse's samples.
const HALF: usize = SAMPLES / 2;

/// Where no number is marked.
const NOWHERE: u64 = COUNT as u64;

/// How a case's numbers are made, here and in crates/fft_cases/src/made.rt.
#[derive(Clone, Copy)]
enum Recipe {
    /// Noise from the seed, by base and mask, and at one place a number with these bits.
    Noise([u64; 5]),
    /// Two numbers, then `c * y - x` after x and y: a sine whose step has the cosine c / 2.
    Tone([f64; 3]),
}

impl Recipe {
    fn fields(self) -> [u64; 5] {
        match self {
            Recipe::Noise(fields) => fields,
            Recipe::Tone([c, first, second]) => {
                [c.to_bits(), first.to_bits(), second.to_bits(), 0, 0]
            }
        }
    }

    fn numbers(self) -> [f64; COUNT] {
        match self {
            Recipe::Noise([word, base, mask, place, mark]) => {
                let mut noise = Noise { word, base, mask };
                let mut out = [0.0; COUNT].map(|_| noise.number());
                if let Some(x) = out.get_mut(place as usize) {
                    *x = f64::from_bits(mark);
                }
                out
            }
            Recipe::Tone([c, mut x, mut y]) => [0.0; COUNT].map(|_| {
                let now = x;
                (x, y) = (y, c * y - x);
                now
            }),
        }
    }
}

/// The lines so far, the Rust that answers them, and the word that the next seed comes from.
struct List {
    text: String,
    rust: Reference,
    word: u64,
    /// How many cases of an inverse there are in which no sample went over, in which some did, and all.
    overs: [[usize; 3]; INVERSES.len()],
}

impl List {
    fn seed(&mut self) -> u64 {
        self.word = turned(self.word);
        self.word
    }

    fn line(&mut self, letter: char, fields: [u64; 12]) {
        self.text += &line(letter, &fields);
    }

    /// A transform's case. Of what it leaves in its buffer, the numbers at `at` and the next are shown.
    fn case(&mut self, letter: char, recipe: Recipe, lengths: [usize; 2], at: usize) {
        let mut numbers = recipe.numbers();
        let Inverted { refusal, overs } = self.run(letter, &mut numbers, lengths);
        self.count(letter, overs);
        let letter = match recipe {
            Recipe::Noise(_) => letter,
            Recipe::Tone(_) => letter.to_ascii_uppercase(),
        };
        let [a, b, c, d, e] = recipe.fields();
        let [given, room, place] = [lengths[0], lengths[1], at].map(|n| n as u64);
        let hash = hash(&numbers[..lengths[1]]);
        let (first, second) = (bits(numbers[at]), bits(numbers[at + 1]));
        let answer = inputs::halves([overs, refusal as usize]);
        let fields = [
            a, b, c, d, e, given, room, place, answer, hash, first, second,
        ];
        self.line(letter, fields);
    }

    /// What the Rust answers. As in the program, the buffer that it writes holds the numbers before, narrowed
    /// where it is one of samples, and what it holds after comes back.
    fn run(
        &mut self,
        letter: char,
        numbers: &mut [f64; COUNT],
        [given, room]: [usize; 2],
    ) -> Inverted {
        let mut samples = numbers.map(|x| x as f32);
        let rust = &mut self.rust;
        match letter {
            'f' | 'g' => Inverted::of(rust.forward(&samples[..given], &mut numbers[..room])),
            'c' => Inverted::of(rust.complex_forward(&mut numbers[..given])),
            'r' => Inverted::of(rust.complex_inverse(&mut numbers[..given])),
            'i' | 'j' => {
                let answer = rust.inverse(&numbers[..given], &mut samples[..room]);
                *numbers = samples.map(f64::from);
                answer
            }
            'h' | 'l' => {
                let mut whole = [0.0; SAMPLES];
                let answer = match room {
                    HALF => rust.inverse(&numbers[..given], &mut whole),
                    _ => Inverted::of(WRONG_LENGTH),
                };
                if answer.refusal == DONE {
                    let first = if letter == 'l' { HALF } else { 0 };
                    samples[..HALF].copy_from_slice(&whole[first..first + HALF]);
                }
                *numbers = samples.map(f64::from);
                answer
            }
            _ => {
                let answer = self.run('f', numbers, [given, SPECTRUM]);
                if answer.refusal != DONE {
                    return answer;
                }
                self.run('i', numbers, [SPECTRUM, room])
            }
        }
    }

    fn count(&mut self, letter: char, overs: usize) {
        if let Some(place) = INVERSES.find(letter) {
            let kind = match overs {
                0 => 0,
                SAMPLES => 2,
                _ => 1,
            };
            self.overs[place][kind] += 1;
        }
    }

    /// To standard error, with an end where a kind of inverse has no case with none over, with some, or with all.
    fn tell(&self) {
        for (letter, counts) in INVERSES.chars().zip(self.overs) {
            eprintln!("{letter}, cases with none over, some, all: {counts:?}");
            assert!(!counts.contains(&0));
        }
    }
}

/// The letters that inverses have. Both ways, `b`, no finite sample goes over.
const INVERSES: &str = "ijhl";

/// The lengths that a letter's functions take.
fn right(letter: char) -> [usize; 2] {
    match letter {
        'f' | 'g' => [SAMPLES, SPECTRUM],
        'i' | 'j' => [SPECTRUM, SAMPLES],
        'h' | 'l' => [SPECTRUM, HALF],
        'b' => [SAMPLES, SAMPLES],
        _ => [POINTS, POINTS],
    }
}

fn main() {
    let mut list = List {
        text: String::new(),
        rust: Reference::new(),
        word: 0x2545_f491_4f6c_dd1d,
        overs: [[0; 3]; INVERSES.len()],
    };
    to_look_at(&mut list);
    kinds(&mut list);
    marked(&mut list);
    wrong_lengths(&mut list);
    table(&mut list);
    angles(&mut list);
    halves(&mut list);
    one_bin(&mut list);
    overs(&mut list);
    list.tell();
    print!("{}", list.text);
}

/// For a reader: bins 0, 1, 8, 128, 255 and 256 of an impulse at 0 and at 100, a constant, two sines, the
/// first of them bin 8's own, and sound.
fn to_look_at(list: &mut List) {
    let one = 1.0f64.to_bits();
    let sound = Noise::sound(list.seed());
    let inputs = [
        Recipe::Noise([0, 0, 0, 0, one]),
        Recipe::Noise([0, 0, 0, 100, one]),
        Recipe::Noise([0, one, 0, NOWHERE, 0]),
        sine(-2.0 * PI / 64.0),
        sine(-2.0 * PI / 10.4),
        Recipe::Noise([sound.word, sound.base, sound.mask, NOWHERE, 0]),
    ];
    for recipe in inputs {
        for letter in ['f', 'i', 'b', 'c', 'r'] {
            for bin in [0, 1, 8, 128, 255, 256] {
                if 2 * bin < right(letter)[1] {
                    list.case(letter, recipe, right(letter), 2 * bin);
                }
            }
        }
    }
}

/// A sine of size 0.5. The step is written as det_cos takes it, from -pi to 0.
fn sine(step: f64) -> Recipe {
    Recipe::Tone([2.0 * read_det_cos(step), 0.0, -0.5 * read_det_sin(step)])
}

/// Kinds of numbers, by base and mask. As samples, those below 2^-126 are subnormal or zero, and those
/// from 2^128 on infinite.
const KINDS: [(u64, u64); 14] = [
    (0, SIGN),                                 // silence with -0.0 strewn in
    (0x3ff << 52, SIGN | SIZES | DIGITS),      // sound, 2^-15 to 2
    (0x3ff << 52, SIGN | 0x7f << 52 | DIGITS), // 2^-127 to 2
    (0, !(1 << 62)),                           // any below 2
    (0, !0),                                   // any
    (0x37f << 52, SIGN | SIZES | DIGITS),      // 2^-143 to 2^-127
    (0, SIGN | SIZES | DIGITS),                // 2^-1074 to 2^-1007
    (0, SIGN | DIGITS),                        // subnormal
    (0x47e << 52, SIGN | DIGITS),              // 2^127 to 2^128
    (0x47f << 52, SIGN | SIZES | DIGITS),      // 2^113 to 2^129
    (0x7f5 << 52, SIGN | DIGITS),              // 2^1014 to 2^1015, whose sums are finite
    (0x7fe << 52, SIGN | DIGITS),              // 2^1023 to 2^1024, whose sums are not
    (0x7ff << 52, SIGN),                       // infinite
    (0x7ff << 52, SIGN | DIGITS),              // NaN
];

/// Each kind three times, and once for the letters that are made of the first four.
fn kinds(list: &mut List) {
    for (base, mask) in KINDS {
        for letter in "fffiiicccrrrgjb".chars() {
            let recipe = Recipe::Noise([list.seed(), base, mask, NOWHERE, 0]);
            let at = 2 * (list.seed() % 256) as usize;
            list.case(letter, recipe, right(letter), at);
        }
    }
}

/// Sound, silence, and silence with -0.0 strewn in, each with one number of another kind.
fn marked(list: &mut List) {
    let sound = Noise::sound(0);
    let kinds = [(sound.base, sound.mask), (0, 0), (0, SIGN)];
    let marks = [
        f64::NAN,
        f64::INFINITY,
        f64::NEG_INFINITY,
        -0.0,
        f64::MAX,
        f64::from_bits(1),
        f32::MAX.into(),
        f32::from_bits(1).into(),
    ];
    for mark in marks {
        for (base, mask) in kinds {
            for letter in ['f', 'i', 'c', 'r'] {
                let place = list.seed() % 512;
                let recipe = Recipe::Noise([list.seed(), base, mask, place, bits(mark)]);
                let at = 2 * (list.seed() % 256) as usize;
                list.case(letter, recipe, right(letter), at);
            }
        }
    }
}

fn wrong_lengths(list: &mut List) {
    for letter in ['f', 'g', 'i', 'j', 'c', 'r', 'b'] {
        wrong(list, letter);
    }
}

/// One length wrong, the other, both, and the two changed about.
fn wrong(list: &mut List, letter: char) {
    let sound = Noise::sound(0);
    let [given, room] = right(letter);
    let mut lengths = vec![[room, given], [0, 0], [1024, 1024]];
    for wrong in [0, 1, 256, 257, 511, 512, 513, 514, 515, 1023, 1024] {
        lengths.extend([[wrong, room], [given, wrong], [wrong, wrong]]);
    }
    if letter == 'c' || letter == 'r' {
        lengths.retain(|[given, room]| given == room);
    }
    lengths.retain(|pair| *pair != right(letter));
    lengths.sort();
    lengths.dedup();
    for pair in lengths {
        let recipe = Recipe::Noise([list.seed(), sound.base, sound.mask, NOWHERE, 0]);
        list.case(letter, recipe, pair, 0);
    }
}

/// Either half of the inverse: each kind, and wrong lengths.
fn halves(list: &mut List) {
    for letter in ['h', 'l'] {
        for (base, mask) in KINDS {
            let recipe = Recipe::Noise([list.seed(), base, mask, NOWHERE, 0]);
            let at = 2 * (list.seed() % 128) as usize;
            list.case(letter, recipe, right(letter), at);
        }
        wrong(list, letter);
    }
}

/// Bin 128, its own mirror, so large that its sum with itself is infinite: it is halved after that. And bin 0 alone, both parts -0.0, which
/// the products and sums, run for it as for any bin, turn to +0.0. Whole and by halves.
fn one_bin(list: &mut List) {
    let large = 1.5 * 2f64.powi(1023);
    let bins = [
        Recipe::Noise([0, 0, 0, 256, bits(large)]),
        Recipe::Tone([1.0, -0.0, -0.0]),
    ];
    for recipe in bins {
        for letter in ['i', 'j', 'h', 'l'] {
            list.case(letter, recipe, right(letter), 0);
        }
    }
}

fn table(list: &mut List) {
    let entries: Vec<[f64; 2]> = read_recombination(&list.rust.real)
        .iter()
        .map(|z| [z.re, z.im])
        .collect();
    for (k, [re, im]) in entries.into_iter().enumerate() {
        let at = 2 * k as u64;
        list.line('t', [0, 0, 0, 0, 0, 0, 0, at, 0, 0, bits(re), bits(im)]);
    }
}

/// The table's angles, and others from -pi to 0.
fn angles(list: &mut List) {
    let mut angles: Vec<f64> = (0..=256).map(|k| -2.0 * PI * k as f64 / 512.0).collect();
    for x in [PI, PI / 2.0, PI / 4.0] {
        angles.push(-x.next_down());
    }
    angles.extend([-(PI / 2.0).next_up(), -f64::MIN_POSITIVE]);
    angles.extend([-f64::from_bits(1), 0.0]);
    for _ in 0..60 {
        angles.push(-PI * (list.seed() >> 11) as f64 / 2f64.powi(53));
    }
    for x in angles {
        let (cos, sin) = (bits(read_det_cos(x)), bits(read_det_sin(x)));
        list.line('a', [x.to_bits(), 0, 0, 0, 0, 0, 0, 0, 0, 0, cos, sin]);
    }
}

/// 2^128 - 2^103, halfway between the largest f32 and the next that there would be.
const BORDER: f64 = 340282356779733661637539395458142568448.0;

/// How many samples go over (request K8). Of bin 0 alone all are that number over 512: at the border, of either sign, and beside it. Of
/// noise about the largest f32 some do, and of one loud bin those about its peaks. Where sums are infinite some points are, which are not
/// counted.
fn overs(list: &mut List) {
    let bin = |x: f64| Recipe::Noise([0, 0, 0, 0, bits(512.0 * x)]);
    let border = [BORDER, -BORDER, BORDER.next_down(), -BORDER.next_down()];
    for x in border
        .into_iter()
        .chain([BORDER.next_up(), f64::MAX / 512.0])
    {
        for letter in ['i', 'j', 'h', 'l'] {
            list.case(letter, bin(x), right(letter), 0);
        }
    }
    let sound = Noise::sound(0);
    let loud = bits(1.25 * 2f64.powi(136));
    for letter in ['i', 'j', 'h', 'l'] {
        for [base, mask, place, mark] in [
            [0x482 << 52, SIGN | DIGITS, NOWHERE, 0],
            [sound.base, sound.mask, 7, loud],
            [0x7fa << 52, SIGN | DIGITS, NOWHERE, 0],
        ] {
            let recipe = Recipe::Noise([list.seed(), base, mask, place, mark]);
            list.case(letter, recipe, right(letter), 0);
        }
    }
}
