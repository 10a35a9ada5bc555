//! Narrowing, the port against Rust's `as f32`: one number a call, its bits, its kind, and lists with how many went over. Every number's
//! bits are compared, NaN equal to NaN.

mod aspeyruni;
mod inputs;
mod tally;

use inputs::{bits32, Noise, Random, DIGITS, SIGN};
use tally::Tally;

const NARROWED: u64 = 10_000_000;

/// What the port takes at once of a list.
const GROUP: usize = 32;

fn main() {
    let mut random = Random(0x9e37_79b9_7f4a_7c15);
    let mut ones = Ones::default();
    (0..NARROWED).for_each(|i| ones.one(f64::from_bits(pattern(i, &mut random))));
    ones.tell("narrow");
    let mut ones = Ones::default();
    borders().into_iter().for_each(|x| ones.one(x));
    ones.tell("narrow, borders");
    lists(&mut random).tell("narrow_list");
    border_lists().tell("narrow_list, borders");
}

/// The numbers, and the calls by their kind.
#[derive(Default)]
struct Ones {
    numbers: Tally,
    kinds: [Tally; 3],
}

impl Ones {
    fn one(&mut self, x: f64) {
        let there = x as f32;
        self.numbers.one(aspeyruni::narrow(x).into(), there.into());
        self.numbers
            .answer(aspeyruni::narrow_bits(x), bits32(there));
        let kind = kind(x);
        self.kinds[kind as usize].call(aspeyruni::narrow_kind(x) == kind);
    }

    fn tell(&self, name: &str) {
        self.numbers.tell(name);
        for (kind, tally) in ["exact", "rounded", "over"].iter().zip(&self.kinds) {
            tally.tell_calls(&format!("{name}, {kind}"));
        }
    }
}

/// A NaN and the infinities are exact; a finite number that becomes infinite is over (request K8).
fn kind(x: f64) -> u32 {
    let narrowed = x as f32;
    if !x.is_finite() || f64::from(narrowed) == x {
        0
    } else if narrowed.is_finite() {
        1
    } else {
        2
    }
}

/// The numbers of lists, and the lists by whether some went over.
#[derive(Default)]
struct Lists {
    numbers: Tally,
    overs: [Tally; 2],
}

impl Lists {
    fn one(&mut self, list: &[f64], room: usize) {
        let mut here = vec![0.25; room];
        let mut there = here.clone();
        let port = aspeyruni::narrow_list(list, &mut here);
        let mut overs = 0;
        for (x, y) in list.iter().zip(&mut there) {
            *y = *x as f32;
            overs += usize::from(kind(*x) == 2);
        }
        self.numbers.samples(&here, &there);
        self.overs[usize::from(overs > 0)].call(port == overs);
    }

    fn tell(&self, name: &str) {
        self.numbers.tell(name);
        for (kind, tally) in ["none", "some"].iter().zip(&self.overs) {
            tally.tell_calls(&format!("{name}, {kind} over"));
        }
    }
}

/// In turn: any number; one of an f32's size, or a little more or less, half of them f32s where these are normal; one halfway between two
/// normal f32s, or beside that; the same of subnormal ones.
fn pattern(i: u64, random: &mut Random) -> u64 {
    let word = random.word();
    let (sign, digits) = (word & SIGN, word & DIGITS);
    match i % 4 {
        0 => word,
        1 => {
            let dropped = if i % 8 == 1 { 29 } else { 0 };
            sign | (868 + random.word() % 289) << 52 | digits >> dropped << dropped
        }
        2 => sign | halfway(897 + random.word() % 254, digits, 29) + i % 3 - 1,
        _ => {
            let exponent = 874 + random.word() % 23;
            sign | halfway(exponent, digits, 926 - exponent) + i % 3 - 1
        }
    }
}

/// A pattern whose last digits, so many as are dropped, are a one and zeros.
fn halfway(exponent: u64, digits: u64, dropped: u64) -> u64 {
    exponent << 52 | digits >> dropped << dropped | 1 << (dropped - 1)
}

/// Every exponent about which the way of rounding changes, with the digits that decide, both signs of each. The last of the middles is where
/// the product of the short way gets a digit more.
fn borders() -> Vec<f64> {
    let exponents = [
        0..=2,
        871..=876,
        894..=899,
        1022..=1024,
        1147..=1153,
        2045..=2047,
    ];
    let middles = [
        1 << 28,
        3 << 28,
        1 << 51,
        (1 << 52) - (1 << 28),
        (1 << 52) - (1 << 24),
    ];
    let mut digits = vec![0, 1, 2, 3, DIGITS - 1, DIGITS, 0xd_eadb_eefd_eadb];
    digits.extend(middles.iter().flat_map(|middle| middle - 3..=middle + 3));
    let fields = exponents.into_iter().flatten();
    let sizes = fields.flat_map(|e| digits.iter().map(move |d| e << 52 | d));
    let patterns = sizes.flat_map(|p| [p, p | SIGN]);
    patterns.map(f64::from_bits).collect()
}

/// Lists of none to three groups and more, of sound with some numbers of another kind among it, or of none but these. Where `out` is
/// shorter the rest of the list is not narrowed, and where it is longer the rest of it stays.
fn lists(random: &mut Random) -> Lists {
    let mut lists = Lists::default();
    let mut narrowed = 0;
    while narrowed < NARROWED {
        let mut sound = Noise::sound(random.seed());
        let length = random.below(3 * GROUP + 8);
        let one_in = random.one_of(&[1, 4, 16, 64, 1 << 40]);
        let zeros = random.below(2) == 0;
        let list: Vec<f64> = (0..length as u64)
            .map(|i| match random.word() {
                word if word % one_in != 0 => sound.number(),
                word if zeros => f64::from_bits(word & SIGN),
                _ => f64::from_bits(pattern(i, random)),
            })
            .collect();
        let room = random.one_of(&[length, length / 2, length + 5]);
        lists.one(&list, room);
        narrowed += length.min(room) as u64;
    }
    lists
}

/// Each border at each place of a group whose other numbers are alike, and at the place behind it.
fn border_lists() -> Lists {
    let others = [
        1.5,
        -1e-30,
        0.0,
        -0.0,
        1e-40,
        1e38,
        -3e38,
        f64::INFINITY,
        f64::NAN,
    ];
    let mut lists = Lists::default();
    for x in borders() {
        for other in others {
            for place in 0..=GROUP {
                let mut list = [other; GROUP + 1];
                list[place] = x;
                lists.one(&list, list.len());
            }
        }
    }
    lists
}
