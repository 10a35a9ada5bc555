//! Cases for the crate `record`, with the answers that the request gives, by its second reading (record.rs). `oracle/lists` writes them to
//! crates/record_cases/stdin, which the program `record_cases` replays.
//!
//! A line is a letter and six fields of 16 hex digits, the last of them the answer. Bytes are noise, but for those that a line shows. For
//! the reader, in lower case:
//!
//!     r  the refusal         0   the six bytes of a header, as they stand, in the last twelve digits
//!     k  the kind            1   how many bytes there are, header and payload and what may lie behind; a header may be cut too
//!     s  the size            2   the eight bytes behind the header, as they stand
//!     p  the part's hash     3   the seed of the noise (`noise8`), from the first byte on
//!                            4   0
//!
//! For the writer, in upper case:
//!
//!     R  the refusal         0   the kind
//!     W  how many bytes it   1   how many bytes the payload has
//!        says it wrote       2   its first eight bytes, as they stand; of a shorter one the first of these
//!     B  the hash of the     3   the seed of the noise, from the payload's first byte on
//!        whole buffer after  4   how many places of the buffer it is lent
//!
//! The buffer is longer than what is lent, and it holds noise before (`BEFORE`), so that a byte which should not be written shows.

mod inputs;
mod record;

use inputs::{hash8, line, noise8, Random};
use record::{FLUSH, HEADER, MARK, OUTPUT, PAIRS, RESET};
use std::collections::HashSet;

/// The sizes of the program's buffers: of the bytes that are read, and of the one that is written.
const BYTES: usize = 65_536;
const PLACES: usize = 4_112;

/// The seed of what that one holds before.
const BEFORE: u64 = 0x2545_f491_4f6c_dd1d;

/// Lengths at the borders of the kinds and of the most that a payload may have. The last two are the largest that a header can say, of
/// pairs and of anything.
const LENGTHS: [usize; 19] = [
    0, 1, 3, 4, 5, 7, 8, 9, 12, 16, 4_088, 4_092, 4_095, 4_096, 4_097, 4_100, 4_104, 65_528, 65_535,
];

/// The writer takes any number for a kind. The last five are 0 to 2 and the largest byte where they are cut to a byte or to two.
const KINDS: [u32; 12] = [0, 1, 2, 3, 4, 5, 255, 256, 257, 258, 65_537, u32::MAX];

/// The lines, each once.
struct List {
    text: String,
    seen: HashSet<String>,
    random: Random,
}

impl List {
    fn line(&mut self, letter: char, given: [u64; 5], answer: u64) {
        self.text += &line(letter, given.iter().chain(&[answer]));
    }

    /// All that the reader answers, once for these bytes of a header and this count.
    fn reads(&mut self, header: [u8; HEADER], count: usize) {
        let [shown, seed] = [0; 2].map(|_| self.random.seed());
        if self.seen.insert(format!("{header:x?} {count}")) {
            self.reads_of(header, count, shown, seed);
        }
    }

    fn reads_of(&mut self, header: [u8; HEADER], count: usize, shown: u64, seed: u64) {
        let bytes = made(&[&header[..], &shown.to_be_bytes()].concat(), seed, count);
        let read = record::read(&bytes);
        let [a, b, c, d, e, f] = header;
        let header = u64::from_be_bytes([0, 0, a, b, c, d, e, f]);
        let given = [header, count as u64, shown, seed, 0];
        self.line('r', given, read.refusal.into());
        self.line('k', given, read.kind.into());
        self.line('s', given, read.size as u64);
        self.line('p', given, hash8(read.part));
    }

    /// All that the writer answers.
    fn writes(&mut self, kind: u32, length: usize, room: usize) {
        let [shown, seed] = [0; 2].map(|_| self.random.seed());
        if self.seen.insert(format!("{kind} {length} {room}")) {
            self.writes_of(kind, length, room, shown, seed);
        }
    }

    fn writes_of(&mut self, kind: u32, length: usize, room: usize, shown: u64, seed: u64) {
        let payload = made(&shown.to_be_bytes(), seed, length);
        let written = record::write(kind, &payload, room);
        let mut buffer = noise8(BEFORE, PLACES);
        buffer[..written.bytes.len()].copy_from_slice(&written.bytes);
        let given = [kind.into(), length as u64, shown, seed, room as u64];
        self.line('R', given, written.refusal.into());
        self.line('W', given, written.bytes.len() as u64);
        self.line('B', given, hash8(&buffer));
    }
}

/// Noise behind some bytes, or as many of these as there are.
fn made(front: &[u8], seed: u64, count: usize) -> Vec<u8> {
    let mut bytes = noise8(seed, count);
    for (byte, given) in bytes.iter_mut().zip(front) {
        *byte = *given;
    }
    bytes
}

/// A header with nothing wrong but what the kind and the length may be.
fn header(kind: u32, length: usize) -> [u8; HEADER] {
    let [low, high] = (length as u16).to_le_bytes();
    [MARK[0], MARK[1], kind as u8, 0, low, high]
}

fn main() {
    let mut list = List {
        text: String::new(),
        seen: HashSet::new(),
        random: Random(0x9e37_79b9_7f4a_7c15),
    };
    cut(&mut list);
    bytes_of_the_header(&mut list);
    lengths(&mut list);
    exchanged(&mut list);
    two_faults(&mut list);
    writer(&mut list);
    as_they_are(&mut list);
    print!("{}", list.text);
}

/// Good records cut behind each byte, and bytes that are no record at all: fewer than six are 9, whatever they are.
fn cut(list: &mut List) {
    for (kind, length) in [(PAIRS, 8), (OUTPUT, 4), (FLUSH, 0), (RESET, 0)] {
        for count in 0..=HEADER + length + 1 {
            list.reads(header(kind, length), count);
        }
    }
    for bytes in [[0; HEADER], [0xff; HEADER]] {
        for count in 0..=HEADER + 1 {
            list.reads(bytes, count);
        }
    }
}

/// A wrong byte of the mark, the two exchanged, and a fourth byte that is not zero.
fn bytes_of_the_header(list: &mut List) {
    for (kind, length) in [(PAIRS, 16), (FLUSH, 0)] {
        let [a, b, rest @ ..] = header(kind, length);
        let mut wrong = vec![[b, a], [a, a], [b, b]];
        for other in [0x01, 0x10, 0x80, 0xff] {
            wrong.extend([[a ^ other, b], [a, b ^ other]]);
        }
        for [first, second] in wrong {
            let [c, d, e, f] = rest;
            list.reads([first, second, c, d, e, f], HEADER + length);
        }
        for fourth in [0x01, 0x02, 0x10, 0x80, 0xff] {
            let [c, _, e, f] = rest;
            list.reads([a, b, c, fourth, e, f], HEADER + length);
        }
    }
}

/// Every kind with every length, and a payload that is short by one, exact, and with a byte behind it. Where the header says more than
/// the program's buffer holds, the payload is as long as that.
fn lengths(list: &mut List) {
    for kind in [0, 1, 2, 3, 4, 5, 255] {
        for length in LENGTHS {
            let size = HEADER + length;
            for count in [size - 1, size, size + 1] {
                list.reads(header(kind, length), count.min(BYTES));
            }
        }
    }
}

/// The length's two bytes exchanged, with a payload that would do if its highest byte came first, and with one that does.
fn exchanged(list: &mut List) {
    for kind in [PAIRS, OUTPUT] {
        for length in LENGTHS {
            let other = usize::from((length as u16).swap_bytes());
            for payload in [length, other] {
                let count = (HEADER + payload).min(BYTES);
                list.reads(header(kind, other), count);
            }
        }
    }
}

/// What can be wrong with a record, in the order of the refusals.
#[derive(Clone, Copy, Debug, PartialEq)]
enum Fault {
    ShortHeader,
    Mark,
    Mark2,
    Fourth,
    Kind,
    TooLong,
    NotFitting,
    ShortPayload,
}

const FAULTS: [Fault; 8] = [
    Fault::ShortHeader,
    Fault::Mark,
    Fault::Mark2,
    Fault::Fourth,
    Fault::Kind,
    Fault::TooLong,
    Fault::NotFitting,
    Fault::ShortPayload,
];

/// Each fault with each, so that the order of the refusals shows.
fn two_faults(list: &mut List) {
    for one in FAULTS {
        for other in FAULTS {
            let has = |fault| [one, other].contains(&fault);
            let kind = if has(Fault::Kind) { 9 } else { PAIRS };
            let length = match (has(Fault::TooLong), has(Fault::NotFitting)) {
                (false, false) => 8,
                (false, true) => 12,
                (true, false) => 4_104,
                (true, true) => 4_108,
            };
            let mut bytes = header(kind, length);
            bytes[0] ^= u8::from(has(Fault::Mark));
            bytes[1] ^= u8::from(has(Fault::Mark2));
            bytes[3] ^= u8::from(has(Fault::Fourth));
            let count = match (has(Fault::ShortHeader), has(Fault::ShortPayload)) {
                (true, _) => HEADER - 1,
                (_, true) => HEADER + length - 1,
                _ => HEADER + length,
            };
            list.reads(bytes, count);
        }
    }
}

/// Every kind with every length up to 4,104, and a room that is one short, exact, and one more; no room, where 8 comes before 5; and
/// each room that is too short for a pair.
fn writer(list: &mut List) {
    for kind in KINDS {
        for length in LENGTHS.into_iter().filter(|length| *length <= 4_104) {
            let size = HEADER + length;
            for room in [size - 1, size, size + 1] {
                list.writes(kind, length, room);
            }
        }
        list.writes(kind, 0, 0);
        list.writes(kind, 8, 0);
    }
    for room in 0..HEADER + 8 {
        list.writes(PAIRS, 8, room);
    }
}

/// NaNs with payloads of their own, signalling ones among them, are bytes like any.
fn as_they_are(list: &mut List) {
    for shown in [0x0100_807f_0100_80ff, 0xffff_ff7f_0000_c07f] {
        for (kind, length) in [(PAIRS, 8), (OUTPUT, 4), (OUTPUT, 8)] {
            let size = HEADER + length;
            list.reads_of(header(kind, length), size, shown, 0);
            list.writes_of(kind, length, size, shown, 0);
        }
    }
}
