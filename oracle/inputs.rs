//! Numbers to run the port and the Rust on, the same at each run.

#![allow(dead_code)] // a driver uses a part

pub const SIGN: u64 = 1 << 63;
pub const DIGITS: u64 = (1 << 52) - 1;

/// The low bits of the exponent's field: sixteen sizes, each twice the one before.
pub const SIZES: u64 = 0xf << 52;

/// The same of f32s.
pub const SIGN32: u64 = 1 << 31;
pub const DIGITS32: u64 = (1 << 23) - 1;
pub const SIZES32: u64 = 0xf << 23;

/// Bit patterns, `base ^ (word & mask)`, the words coming one from the other.
pub struct Noise {
    pub word: u64,
    pub base: u64,
    pub mask: u64,
}

impl Noise {
    /// Numbers of either sign from 2^-15 to 2 in size, as sound has them.
    pub fn sound(word: u64) -> Noise {
        Noise {
            word,
            base: 1.0f64.to_bits(),
            mask: SIGN | SIZES | DIGITS,
        }
    }

    pub fn number(&mut self) -> f64 {
        self.word = turned(self.word);
        f64::from_bits(self.base ^ (self.word & self.mask))
    }

    /// Of a base and a mask of 32 bits.
    pub fn sample(&mut self) -> f32 {
        self.word = turned(self.word);
        f32::from_bits((self.base ^ (self.word & self.mask)) as u32)
    }
}

/// Bytes, as `cases::Noise` makes them: of each word the lowest.
pub fn noise8(seed: u64, count: usize) -> Vec<u8> {
    let words = std::iter::successors(Some(turned(seed)), |word| Some(turned(*word)));
    words.map(|word| word as u8).take(count).collect()
}

/// Words for whatever is chosen at random, the same at each run.
pub struct Random(pub u64);

impl Random {
    pub fn word(&mut self) -> u64 {
        self.0 = turned(self.0);
        self.0
    }

    /// For noise. From a word as it is, noise would go on with the words that are drawn after it: two noises drawn in a row were the same,
    /// one place apart. The committed lists have seeds of that kind, and keep them.
    pub fn seed(&mut self) -> u64 {
        mixed(self.word())
    }

    /// Below `n`.
    pub fn below(&mut self, n: usize) -> usize {
        ((self.word() >> 11) % n as u64) as usize
    }

    pub fn one_of<T: Copy>(&mut self, some: &[T]) -> T {
        some[self.below(some.len())]
    }

    /// Makes one in so many samples one that is not finite.
    pub fn strew<'a>(&mut self, samples: impl Iterator<Item = &'a mut f32>, one_in: u64) {
        for x in samples {
            let word = self.word();
            if word % one_in == 0 {
                *x = f32::from_bits((word >> 32) as u32 | 0xff << 23);
            }
        }
    }
}

/// The word after this one, by Marsaglia's xorshift. All words but 0 lie on one ring, and 0 stays.
pub fn turned(word: u64) -> u64 {
    let a = word ^ word << 13;
    let b = a ^ a >> 7;
    b ^ b << 17
}

/// By the last steps of splitmix64. No two words give the same, and 0 gives 0.
fn mixed(word: u64) -> u64 {
    let a = (word ^ word >> 30).wrapping_mul(0xbf58_476d_1ce4_e5b9);
    let b = (a ^ a >> 27).wrapping_mul(0x94d0_49bb_1331_11eb);
    b ^ b >> 31
}

/// A word by a small number. Those of two numbers lie apart on the ring.
pub fn word_of(number: u64) -> u64 {
    turned(turned(number)) | 1
}

/// One pattern for every NaN, since which one an operation gives is left open.
pub fn bits(x: f64) -> u64 {
    if x.is_nan() {
        0x7ff8_0000_0000_0000
    } else {
        x.to_bits()
    }
}

pub fn bits32(x: f32) -> u32 {
    if x.is_nan() {
        0x7fc0_0000
    } else {
        x.to_bits()
    }
}

/// As `cases::hash` and `cases::hash_bytes` have it.
pub fn hash(numbers: &[f64]) -> u64 {
    numbers.iter().fold(HASH, |h, x| turned(h ^ bits(*x)))
}

pub fn hash32(samples: &[f32]) -> u64 {
    samples
        .iter()
        .fold(HASH, |h, x| turned(h ^ u64::from(bits32(*x))))
}

pub fn hash8(bytes: &[u8]) -> u64 {
    let start = turned(HASH ^ bytes.len() as u64);
    bytes.iter().fold(start, |h, b| turned(h ^ u64::from(*b)))
}

const HASH: u64 = 0x9e37_79b9_7f4a_7c15;

pub fn halves([high, low]: [usize; 2]) -> u64 {
    (high as u64) << 32 | low as u64
}

/// A line of a list.
pub fn line<'a>(letter: char, fields: impl IntoIterator<Item = &'a u64>) -> String {
    let fields = fields.into_iter().map(|field| format!(" {field:016x}"));
    format!("{letter}{}\n", fields.collect::<String>())
}
