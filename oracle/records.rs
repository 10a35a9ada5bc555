//! Records, the library's reader and writer against the request's second reading (record.rs). Of a read all that it answers is compared,
//! of a write that and the whole buffer after it, with some places beyond what was lent, and of a capture each of its records.

mod aspeyruni;
mod inputs;
mod record;
mod tally;

use inputs::{noise8, Random};
use record::{Placed, Records, HEADER, MARK, MOST_PAYLOAD};
use tally::Tally;

/// So many reads of each kind of bytes, so many writes, and so many captures.
const READS: usize = 200_000;
const WRITES: usize = 300_000;
const CAPTURES: usize = 60_000;

/// Payloads are cut from this many bytes of noise.
const NOISE: usize = 1 << 20;

/// Beyond what is lent of a buffer, or behind a record.
const BEYOND: usize = 16;

/// Lengths at the borders.
const LENGTHS: [usize; 16] = [
    0, 1, 4, 7, 8, 12, 16, 255, 256, 4_088, 4_092, 4_095, 4_096, 4_097, 4_100, 4_104,
];

/// Kinds, the good ones more than once, and numbers that are one of these where they are cut.
const KINDS: [u32; 16] = [
    1,
    1,
    1,
    2,
    2,
    2,
    3,
    3,
    4,
    0,
    5,
    255,
    256,
    257,
    65_538,
    u32::MAX,
];

#[derive(Default)]
struct Tallies {
    any: Tally,
    headers: Tally,
    changed: Tally,
    cut: Tally,
    written: Tally,
    again: Tally,
    captures: Tally,
    /// By the request's answer.
    answers: [Tally; 10],
}

struct Both {
    random: Random,
    noise: Vec<u8>,
    tallies: Tallies,
}

fn main() {
    let mut both = Both {
        random: Random(0x9e37_79b9_7f4a_7c15),
        noise: noise8(0x2545_f491_4f6c_dd1d, NOISE),
        tallies: Tallies::default(),
    };
    for _ in 0..READS {
        both.any();
        both.header();
        both.changed();
        both.cut();
    }
    for _ in 0..WRITES {
        both.write();
    }
    for _ in 0..CAPTURES {
        both.capture();
    }
    both.tallies.tell();
}

impl Tallies {
    fn tell(&self) {
        self.any.tell_calls("record read, any bytes");
        self.headers.tell_calls("record read, any header");
        self.changed.tell_calls("record read, one byte changed");
        self.cut.tell_calls("record read, cut");
        self.written.tell_calls("record write");
        self.again.tell_calls("record written, read and written");
        self.captures
            .tell_calls("captures of records, read one by one");
        for number in [0, 5, 7, 8, 9] {
            self.answers[number].tell_calls(&format!("record answer {number}"));
        }
    }
}

/// Whether the library answers the same of these bytes. A part is a place and a length there.
fn reads_same(bytes: &[u8], want: record::Read) -> bool {
    let got = aspeyruni::record_read(bytes);
    let at = if want.refusal == 0 { HEADER } else { 0 };
    got.refusal == want.refusal
        && got.kind == want.kind
        && got.size == want.size
        && got.payload_at == at
        && got.payload_len == want.part.len()
}

/// The records of a capture, as a host goes from one to the next.
fn walked(bytes: &[u8]) -> Records<'_> {
    let mut records = Vec::new();
    let mut place = 0;
    let mut refusal = None;
    while place < bytes.len() && refusal.is_none() {
        let rest = &bytes[place..];
        let got = aspeyruni::record_read(rest);
        if got.refusal != 0 {
            refusal = Some((got.refusal, place));
        } else {
            records.push(Placed {
                place,
                kind: got.kind,
                payload: &rest[got.payload_at..][..got.payload_len],
            });
            place += got.size.max(1); // a size of 0 would never end
        }
    }
    Records { records, refusal }
}

impl Both {
    fn is_one_in(&mut self, n: usize) -> bool {
        self.random.below(n) == 0
    }

    fn some_noise(&mut self, count: usize) -> Vec<u8> {
        let at = self.random.below(NOISE - count);
        self.noise[at..][..count].to_vec()
    }

    /// Short ones for the most part.
    fn length(&mut self) -> usize {
        match self.random.below(8) {
            0 | 1 => self.random.one_of(&LENGTHS),
            2 => self.random.below(MOST_PAYLOAD + BEYOND),
            _ => self.random.below(65),
        }
    }

    /// A good record.
    fn record(&mut self) -> Vec<u8> {
        let kind = 1 + self.random.below(4) as u32;
        let any = self.length().min(MOST_PAYLOAD);
        let length = match kind {
            record::PAIRS => any / 8 * 8,
            record::OUTPUT => any / 4 * 4,
            _ => 0,
        };
        let payload = self.some_noise(length);
        record::write(kind, &payload, usize::MAX).bytes
    }

    /// With other bytes behind it, or none.
    fn record_and_more(&mut self) -> Vec<u8> {
        let mut bytes = self.record();
        let more = self.random.one_of(&[0, 0, 1, BEYOND]);
        bytes.extend(self.some_noise(more));
        bytes
    }

    fn read(&mut self, bytes: &[u8]) -> bool {
        let want = record::read(bytes);
        let is_same = reads_same(bytes, want);
        self.tallies.answers[want.refusal as usize].call(is_same);
        is_same
    }

    /// With the mark in front now and then.
    fn any(&mut self) {
        let count = self.random.below(32);
        let mut bytes = self.some_noise(count);
        if self.is_one_in(2) {
            bytes.splice(0..0, MARK);
        }
        let is_same = self.read(&bytes);
        self.tallies.any.call(is_same);
    }

    /// Bytes of a header that are good, or nearly, each by itself, and behind it about as many bytes as it says.
    fn header(&mut self) {
        let [odd, odd2, fourth] = [0; 3].map(|_| match self.random.below(12) {
            0 => 1 << self.random.below(8),
            _ => 0,
        });
        let kind = self.random.one_of(&KINDS) as u8;
        let length = match self.random.below(8) {
            0 => self.random.below(1 << 16),
            _ => self.length(),
        };
        let [low, high] = (length as u16).to_le_bytes();
        let header = [MARK[0] ^ odd, MARK[1] ^ odd2, kind, fourth, low, high];
        let any = self.random.below(length + 2);
        let ways = [length, length, length + 1, length.saturating_sub(1), 0, any];
        let behind = self.random.one_of(&ways);
        let bytes = [&header[..], &self.some_noise(behind)].concat();
        let is_same = self.read(&bytes);
        self.tallies.headers.call(is_same);
    }

    /// A good record with one byte changed, mostly of its header.
    fn changed(&mut self) {
        let mut bytes = self.record_and_more();
        let most = if self.is_one_in(4) {
            bytes.len()
        } else {
            HEADER
        };
        let at = self.random.below(most);
        bytes[at] ^= 1 + self.random.below(255) as u8;
        let is_same = self.read(&bytes);
        self.tallies.changed.call(is_same);
    }

    /// A good record cut anywhere, or whole.
    fn cut(&mut self) {
        let bytes = self.record_and_more();
        let size = bytes.len();
        let any = self.random.below(size + 1);
        let ways = [any, any, self.random.below(HEADER + 1), size - 1];
        let left = self.random.one_of(&ways);
        let is_same = self.read(&bytes[..left]);
        self.tallies.cut.call(is_same);
    }

    fn write(&mut self) {
        let kind = match self.random.below(16) {
            0 => self.random.word() as u32,
            _ => self.random.one_of(&KINDS),
        };
        let length = match self.random.below(2) {
            0 => self.length(),
            _ => self.length() / 8 * 8,
        };
        let payload = self.some_noise(length);
        let size = HEADER + length;
        let any = self.random.below(size + BEYOND);
        let ways = [size, size, size + 1, size + BEYOND, size - 1, 0, any];
        let room = self.random.one_of(&ways);
        let mut got = self.some_noise(room + BEYOND);
        let mut after = got.clone();
        let answer = aspeyruni::record_write(kind, &payload, &mut got[..room]);
        let want = record::write(kind, &payload, room);
        after[..want.bytes.len()].copy_from_slice(&want.bytes);
        let is_same =
            answer.refusal == want.refusal && answer.written == want.bytes.len() && got == after;
        self.tallies.written.call(is_same);
        self.tallies.answers[want.refusal as usize].call(is_same);
        if answer.refusal == 0 {
            self.again(kind, &payload, &got);
        }
    }

    /// A record that the library wrote is read as what went in, and what it reads is written as the same bytes.
    fn again(&mut self, kind: u32, payload: &[u8], bytes: &[u8]) {
        let got = aspeyruni::record_read(bytes);
        let part = &bytes[got.payload_at..][..got.payload_len];
        let mut out = vec![0; got.size];
        let answer = aspeyruni::record_write(got.kind, part, &mut out);
        let is_read = got.refusal == 0 && got.kind == kind && part == payload;
        let is_written = answer.refusal == 0 && answer.written == got.size;
        let is_same = is_read && is_written && out == bytes[..got.size];
        self.tallies.again.call(is_same);
    }

    /// Records joined, of which one in three captures is damaged: a byte changed, the end cut off, bytes at the end.
    fn capture(&mut self) {
        let count = self.random.below(9);
        let mut bytes: Vec<u8> = (0..count).flat_map(|_| self.record()).collect();
        match self.random.below(9) {
            0 if !bytes.is_empty() => {
                let at = self.random.below(bytes.len());
                bytes[at] ^= 1 + self.random.below(255) as u8;
            }
            1 => bytes.truncate(self.random.below(bytes.len() + 1)),
            2 => bytes.extend(self.some_noise(BEYOND)),
            _ => {}
        }
        let want = record::records(&bytes);
        self.tallies.captures.call(walked(&bytes) == want);
    }
}
