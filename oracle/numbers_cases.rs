//! Cases for the crates `numbers` and `narrow_list`, with the answers that Rust gives. `oracle/lists` writes them to
//! crates/numbers_cases/stdin, which the program `numbers_cases` replays.
//!
//! A line is a letter, then four fields of 16 hex digits: operands a, b, c and the answer r. An
//! operand that is not used is 0, and a pattern of 32 bits stands in the low half.
//!
//!     n  narrow              r = a as f32
//!     N  narrow_bits         r = the bits of a as f32
//!     l  narrow_into         of a list of 33 numbers, c but for a at place b: r = a as f32, and in the high half c as f32
//!     t  narrow_told         r = a as f32, and in the high half its kind: 0 exact, 1 rounded, 2 over
//!     L  narrow_into         of such a list, b in halves: how many places are written, and the place; r = how many of the numbers that
//!                            were narrowed went over
//!     w  widen               r = a as f64, of an f32
//!     a  abs, A abs32        r = a.abs()
//!     i  min                 r = a.min(b)
//!     x  max, X max32        r = a.max(b)
//!     c  clamp               r = a.clamp(b, c)
//!     f  is_finite, F is_finite32       r = 1 where a is finite, else 0
//!     z  finite_or_zero      r = a where a is finite, else +0.0, of an f32
//!     b  from_bits then to_bits, B from_bits32 then to_bits32      r = a
//!
//! Rust does not say which NaN an operation gives, so every NaN answer is written as one pattern,
//! 7ff8000000000000 or 7fc00000. Left out is what Rust leaves open or refuses:
//! - `min` and `max` of +0.0 and -0.0, which may give either;
//! - `clamp` with a NaN for a bound, or with bounds in the wrong order, which panics;
//! - `min` and `max` of a number and a signalling NaN: Rust's pages promise the number, as for a
//!   quiet one, and rustc 1.95 gives a NaN on Arm (aarch64), where the lists are made.
//!
//! `clamp` to a zero with zeros of both signs among its operands may give either too. Those lines stand at the end, with what the
//! comparisons of Rust's own text give (docs/DECISIONS.md): a zero is neither below the other one nor above it, and stays.

use std::collections::HashSet;

/// A format of IEEE 754, by its widths.
#[derive(Clone, Copy)]
struct Format {
    digits: u32,
    exponents: u32,
}

const F32: Format = Format {
    digits: 23,
    exponents: 8,
};
const F64: Format = Format {
    digits: 52,
    exponents: 11,
};

impl Format {
    fn sign(self) -> u64 {
        1 << (self.digits + self.exponents)
    }

    fn pattern(self, exponent: u64, digits: u64) -> u64 {
        exponent << self.digits | digits
    }

    /// The exponent's field of infinities and NaNs.
    fn top(self) -> u64 {
        (1 << self.exponents) - 1
    }

    fn ones(self) -> u64 {
        (1 << self.digits) - 1
    }

    fn infinity(self) -> u64 {
        self.pattern(self.top(), 0)
    }

    /// The NaN whose first digit, alone, is set. With less in its digits a NaN is signalling.
    fn quiet(self) -> u64 {
        self.infinity() | 1 << (self.digits - 1)
    }

    fn is_signalling(self, p: u64) -> bool {
        let size = p % self.sign();
        self.infinity() < size && size < self.quiet()
    }
}

/// Marsaglia's xorshift with a multiplication, from a fixed seed: the list is the same at each run.
struct Random(u64);

impl Random {
    fn next(&mut self) -> u64 {
        self.0 ^= self.0 >> 12;
        self.0 ^= self.0 << 25;
        self.0 ^= self.0 >> 27;
        self.0.wrapping_mul(0x2545_f491_4f6c_dd1d)
    }

    /// Below `n`, from the high bits.
    fn below(&mut self, n: u64) -> u64 {
        (self.next() >> 11) % n
    }

    fn bits(&mut self, f: Format) -> u64 {
        self.next() >> (63 - f.digits - f.exponents)
    }
}

/// The lines, each once.
struct List {
    text: String,
    seen: HashSet<(char, [u64; 3])>,
}

impl List {
    fn put(&mut self, letter: char, operands: [u64; 3], answer: u64) {
        if self.seen.insert((letter, operands)) {
            let [a, b, c] = operands;
            self.text += &format!("{letter} {a:016x} {b:016x} {c:016x} {answer:016x}\n");
        }
    }
}

fn bits(x: f64) -> u64 {
    if x.is_nan() {
        0x7ff8_0000_0000_0000
    } else {
        x.to_bits()
    }
}

fn bits32(x: f32) -> u64 {
    if x.is_nan() {
        0x7fc0_0000
    } else {
        x.to_bits().into()
    }
}

fn float32(pattern: u64) -> f32 {
    f32::from_bits(pattern as u32)
}

fn main() {
    let mut random = Random(0x9e37_79b9_7f4a_7c15);
    let mut list = List {
        text: String::new(),
        seen: HashSet::new(),
    };
    narrowing(&mut list, &mut random);
    of_one(&mut list, &mut random);
    of_one32(&mut list, &mut random);
    of_two(&mut list, &mut random);
    clamping(&mut list, &mut random);
    short_way(&mut list);
    told(&mut list);
    counted(&mut list);
    print!("{}", list.text);
}

/// `n` for every pattern, with both signs, and `N` for a quarter of them.
fn narrowing(list: &mut List, random: &mut Random) {
    let mut patterns = borders();
    patterns.extend(normal_ties(random));
    patterns.extend(subnormal_ties(random));
    // subnormal f64s of every size, f32s, any pattern, and the exponents of f32s with some to either side
    patterns.extend((0..52).step_by(2).map(|k| 1 << k | random.below(1 << k)));
    patterns.extend((0..50).map(|_| (float32(random.bits(F32)) as f64).to_bits()));
    patterns.extend((0..130).map(|_| random.bits(F64)));
    patterns.extend((0..280).map(|_| F64.pattern(868 + random.below(289), random.below(1 << 52))));
    for (k, positive) in patterns.into_iter().enumerate() {
        for (s, p) in [positive, positive ^ F64.sign()].into_iter().enumerate() {
            let r = f64::from_bits(p) as f32;
            list.put('n', [p, 0, 0], bits32(r));
            if (k + 2 * s) % 4 == 0 {
                list.put('N', [p, 0, 0], bits32(r));
            }
        }
    }
}

/// Digits that decide a rounding, at each exponent where the way of rounding changes. As fields of the
/// exponent: 873 with digits 0 is 2^-150, half of the smallest f32, and below it all is 0; 897 is
/// 2^-126, where normal results start; 1150 with digits 2^52 - 2^28 is 2^128 - 2^103, the tie
/// between the largest f32 and the infinity; 0 has the subnormal f64s, and 2047 infinities and NaNs,
/// signalling (the first digit 0) and quiet, with some payloads.
fn borders() -> Vec<u64> {
    let tie = 1u64 << 28;
    let half = 1u64 << 51;
    let end = 1u64 << 52;
    let near = |d: u64| [d - 1, d, d + 1];
    let mut digits = vec![0, 1, 2, end - 2, end - 1, 0xd_eadb_eefd_eadb];
    digits.extend(near(tie));
    digits.extend(near(3 * tie));
    digits.extend(near(half));
    digits.extend(near(end - tie));
    let mut patterns = Vec::new();
    for exponents in [
        0..=2,
        871..=875,
        895..=899,
        1022..=1024,
        1149..=1152,
        2045..=2047,
    ] {
        for exponent in exponents {
            patterns.extend(digits.iter().map(|d| F64.pattern(exponent, *d)));
        }
    }
    patterns
}

/// Halfway between two normal f32s, with an even and an odd digit to keep, and the f64s beside it.
fn normal_ties(random: &mut Random) -> Vec<u64> {
    let mut patterns = Vec::new();
    for exponent in (897..=1150).step_by(11) {
        for odd in 0..2 {
            let kept = random.below(1 << 22) << 1 | odd;
            let p = F64.pattern(exponent, kept << 29 | 1 << 28);
            patterns.extend([p - 1, p, p + 1]);
        }
    }
    patterns
}

/// The same for subnormal f32s, whose unit 2^-149 is 2^(926 - exponent) of an f64's last digit.
fn subnormal_ties(random: &mut Random) -> Vec<u64> {
    let mut patterns = vec![F64.pattern(873, 0)];
    for exponent in 874..=896 {
        let unit = 1u64 << (926 - exponent);
        let least = (1 << 52) / unit;
        for odd in 0..2 {
            let kept = (least + random.below(least)) & !1 | odd;
            let m = kept.max(least) * unit + unit / 2;
            let p = F64.pattern(exponent, m - (1 << 52));
            patterns.extend([p - 1, p, p + 1]);
        }
    }
    patterns
}

/// About the ends of the range of the short way, exponents 897 to 1149, and where its product gets a digit more: one number, its bits, and
/// a list with it at a place among others, plain ones, zeros, and some that the whole group has to go the long way for.
fn short_way(list: &mut List) {
    let end = 1u64 << 52;
    let middles = [1 << 28, 3 << 28, end - (1 << 28), end - (1 << 24)];
    let mut digits = vec![0, 1, end - 1];
    digits.extend(
        middles
            .iter()
            .flat_map(|middle| [middle - 1, *middle, middle + 1]),
    );
    let others = [1.5, 0.0, -0.0, 1e-40, -3e38, f64::NAN];
    let mut turn = 0;
    for exponent in [0, 896, 897, 1023, 1149, 1150, 2047] {
        for d in &digits {
            for p in [
                F64.pattern(exponent, *d),
                F64.pattern(exponent, *d) | F64.sign(),
            ] {
                let x = f64::from_bits(p);
                list.put('n', [p, 0, 0], bits32(x as f32));
                list.put('N', [p, 0, 0], bits32(x as f32));
                for other in [1.5, others[turn % others.len()]] {
                    let place = (7 * turn % 33) as u64;
                    let answer = bits32(other as f32) << 32 | bits32(x as f32);
                    list.put('l', [p, place, bits(other)], answer);
                    turn += 1;
                }
            }
        }
    }
}

/// A NaN and the infinities are exact; a finite number that becomes infinite is over (request K8).
fn kind(x: f64) -> u64 {
    let narrowed = x as f32;
    if !x.is_finite() || f64::from(narrowed) == x {
        0
    } else if narrowed.is_finite() {
        1
    } else {
        2
    }
}

/// Narrowing that tells, where the kind changes: 2^-150, 2^-149, 2^-126, the largest f32 and 2^128 - 2^103, with the numbers beside each,
/// then 2^128 and the largest f64, of either sign; and of every border, the signs in turn.
fn told(list: &mut List) {
    let largest = f64::from(f32::MAX).to_bits();
    let border = F64.pattern(1150, (1 << 52) - (1 << 28));
    let [half, least, normal] = [873, 874, 897].map(|field| F64.pattern(field, 0));
    let changes = [half, least, normal, largest, border];
    let mut patterns: Vec<u64> = changes.iter().flat_map(|p| [p - 1, *p, p + 1]).collect();
    patterns.extend([F64.pattern(1151, 0), F64.infinity() - 1]);
    let negative: Vec<u64> = patterns.iter().map(|p| p | F64.sign()).collect();
    patterns.extend(negative);
    let turns = (0..).zip(borders());
    patterns.extend(turns.map(|(turn, p)| p | turn % 2 * F64.sign()));
    let mut kinds = [0; 3];
    for p in patterns {
        let x = f64::from_bits(p);
        kinds[kind(x) as usize] += 1;
        list.put('t', [p, 0, 0], kind(x) << 32 | bits32(x as f32));
    }
    eprintln!("narrow_told, exact, rounded, over: {kinds:?}");
    assert!(!kinds.contains(&0));
}

/// Lists of which one number goes over, all but one, all, and none, as much of them as there is room for: one of those that are not
/// narrowed is not counted.
fn counted(list: &mut List) {
    let border = f64::from_bits(F64.pattern(1150, (1 << 52) - (1 << 28)));
    let some = [
        border,
        -border,
        border.next_down(),
        -2f64.powi(128),
        f64::MAX,
        f64::INFINITY,
        f64::NAN,
        1.5,
    ];
    let others = [1.5, -0.0, border, -f64::MAX, f64::NEG_INFINITY, 3e38];
    let rooms = [33, 0, 33, 1, 33, 16, 33, 17, 33, 32];
    let mut turn = 0;
    let mut counts = HashSet::new();
    for x in some {
        for other in others {
            for _ in 0..2 {
                let (room, place) = (rooms[turn % rooms.len()], 7 * turn % 33);
                let mut numbers = [other; 33];
                numbers[place] = x;
                let narrowed = numbers[..room].iter();
                let overs = narrowed.filter(|x| kind(**x) == 2).count() as u64;
                let b = (room as u64) << 32 | place as u64;
                list.put('L', [x.to_bits(), b, other.to_bits()], overs);
                counts.insert(overs);
                turn += 1;
            }
        }
    }
    let mut counts: Vec<u64> = counts.into_iter().collect();
    counts.sort();
    eprintln!("narrow_into, counts: {counts:?}");
    assert!([0, 1, 32, 33].iter().all(|count| counts.contains(count)));
}

/// 210 patterns: both signs of the least, the largest and some other digits at the exponents of
/// subnormals, of numbers about 1, of the largest numbers and of infinities and NaNs; the rest random.
fn spread(f: Format, random: &mut Random) -> Vec<u64> {
    let middle = f.top() / 2;
    let mut patterns = Vec::new();
    for exponent in [0, 1, middle - 1, middle, middle + 1, f.top() - 1, f.top()] {
        for digits in [0, 1, 1 << (f.digits - 1), f.ones() / 3, f.ones()] {
            let p = f.pattern(exponent, digits);
            patterns.extend([p, p | f.sign()]);
        }
    }
    patterns.extend((patterns.len()..210).map(|_| random.bits(f)));
    patterns
}

fn of_one(list: &mut List, random: &mut Random) {
    for p in spread(F64, random) {
        let x = f64::from_bits(p);
        list.put('a', [p, 0, 0], bits(x.abs()));
        list.put('f', [p, 0, 0], x.is_finite().into());
        list.put('b', [p, 0, 0], bits(x));
    }
}

fn of_one32(list: &mut List, random: &mut Random) {
    for p in spread(F32, random) {
        let x = float32(p);
        list.put('A', [p, 0, 0], bits32(x.abs()));
        list.put('F', [p, 0, 0], x.is_finite().into());
        list.put('B', [p, 0, 0], bits32(x));
        list.put('w', [p, 0, 0], bits(x as f64));
        list.put('z', [p, 0, 0], bits32(if x.is_finite() { x } else { 0.0 }));
    }
}

/// Zeros, the smallest and the largest subnormal, 1, the largest number and the infinity, each with
/// both signs, and two quiet NaNs, one of them negative and with a payload.
fn specials(f: Format) -> Vec<u64> {
    let one = f.pattern(f.top() / 2, 0);
    let largest = f.pattern(f.top() - 1, f.ones());
    let mut patterns = Vec::new();
    for p in [0, 1, f.ones(), one, largest, f.infinity()] {
        patterns.extend([p, p | f.sign()]);
    }
    patterns.extend([f.quiet(), f.sign() | f.quiet() | 1]);
    patterns
}

/// Every special with every special, and random patterns: with another, with the next, with itself.
/// Without what is left out: the two zeros, and a signalling NaN.
fn pairs(f: Format, random: &mut Random) -> Vec<[u64; 2]> {
    let all = specials(f);
    let mut pairs = Vec::new();
    for p in &all {
        pairs.extend(all.iter().map(|q| [*p, *q]));
    }
    for _ in 0..12 {
        let p = random.bits(f);
        pairs.extend([[p, random.bits(f)], [p, p ^ 1], [p, p]]);
    }
    pairs.retain(|[p, q]| p == q || p | q != f.sign());
    pairs.retain(|pair| !pair.iter().any(|p| f.is_signalling(*p)));
    pairs
}

fn of_two(list: &mut List, random: &mut Random) {
    for [p, q] in pairs(F64, random) {
        let (x, y) = (f64::from_bits(p), f64::from_bits(q));
        list.put('i', [p, q, 0], bits(x.min(y)));
        list.put('x', [p, q, 0], bits(x.max(y)));
    }
    for [p, q] in pairs(F32, random) {
        list.put('X', [p, q, 0], bits32(float32(p).max(float32(q))));
    }
}

/// A few ranges, with every special, and random triples.
fn clamping(list: &mut List, random: &mut Random) {
    let inf = f64::INFINITY;
    let tiny = f64::from_bits(1);
    let ranges = [
        [-inf, -tiny],
        [-inf, inf],
        [-f64::MAX, -1.0],
        [-1.0, -0.0],
        [-1.0, 1.0],
        [-0.0, 0.0],
        [0.0, 0.0],
        [0.0, 1.0],
        [tiny, inf],
        [0.01, 1.0],
        [1.0, 1.0],
        [f64::MAX, inf],
        [inf, inf],
    ];
    let mut triples = Vec::new();
    for [lo, hi] in ranges {
        triples.extend(specials(F64).iter().map(|p| [f64::from_bits(*p), lo, hi]));
    }
    for _ in 0..60 {
        let [x, y, z] = [0; 3].map(|_| f64::from_bits(random.bits(F64)));
        triples.extend([[x, y, z], [y, x, z]]);
    }
    triples.retain(|[_, lo, hi]| lo <= hi);
    let (open, settled): (Vec<_>, _) = triples.into_iter().partition(|triple| is_open(*triple));
    for [x, lo, hi] in settled {
        list.put('c', [x, lo, hi].map(f64::to_bits), bits(x.clamp(lo, hi)));
    }
    for [x, lo, hi] in open {
        let answer = if x < lo {
            lo
        } else if x > hi {
            hi
        } else {
            x
        };
        list.put('c', [x, lo, hi].map(f64::to_bits), bits(answer));
    }
}

/// Whether `clamp` may give either zero.
fn is_open([x, lo, hi]: [f64; 3]) -> bool {
    let has = |zero: f64| [x, lo, hi].map(f64::to_bits).contains(&zero.to_bits());
    has(0.0) && has(-0.0) && x.clamp(lo, hi) == 0.0
}
