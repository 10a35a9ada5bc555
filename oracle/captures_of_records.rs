//! What the programs `pack`, `unpack`, `unpack_output` and `records` are run on and have to write: captures of records, by the request's
//! second reading (record.rs), with the output samples that the Rust gives, completed by document 01 (oracle/rust, tau_reference.rs).
//! `oracle/lists` has it write the files: captures_of_records PROGRAM, and then `stdin` or `stdout`.

mod aspeyruni;
#[allow(dead_code)] // the Rust's text, whole
mod canceller;
mod config;
mod echo;
mod error;
#[allow(dead_code)]
mod fft;
mod house_detector;
mod inputs;
mod kinds;
mod record;
#[allow(dead_code)]
mod rust_tau;
mod taken;
#[allow(dead_code)]
mod tau_calls;
#[allow(dead_code)]
mod tau_lines;
#[allow(dead_code)]
mod tau_reference;

use echo::{add_echo, bytes, pairs};
use inputs::noise8;
use kinds::*;
use record::{FLUSH, MOST_PAYLOAD, OUTPUT, PAIRS, RESET};
use std::io::Write;
use tau_reference::Continued;

const PAIR: usize = 8;
const SAMPLE: usize = 4;

/// Five blocks and a remainder, two full records of pairs and a shorter one.
const COUNT: usize = 1_357;
/// For so many pairs the far end is silent.
const SILENT: usize = 300;

/// Not finite: the infinities, and NaNs with bits of their own, signalling ones first.
const STRANGE: [u32; 8] = [
    0x7f80_0001,
    0xff80_0100,
    0x7fbf_ffff,
    0x7fc0_0000,
    0xffc0_1234,
    0xffff_ffff,
    0x7f80_0000,
    0xff80_0000,
];

/// Pairs with an echo, as bytes, and samples among them that are not finite, of near and of far in turn.
fn sound() -> Vec<u8> {
    let mut near = samples(0x2545_f491, QUARTER, COUNT);
    let mut far = samples(0x4f6c_dd1d, FULL, COUNT);
    far[..SILENT].fill(0.0);
    add_echo(&mut near, &far);
    let mut bytes = pairs(&near, &far);
    for (k, pattern) in STRANGE.iter().enumerate() {
        let at = SAMPLE * (5 + 331 * k);
        bytes[at..at + SAMPLE].copy_from_slice(&pattern.to_le_bytes());
    }
    bytes
}

/// Every second sample from this one on: of near from 0, of far from 1.
fn side(pairs: &[u8], first: usize) -> Vec<f32> {
    let samples = pairs.chunks_exact(SAMPLE).skip(first).step_by(2);
    let patterns = samples.map(|sample| u32::from_le_bytes(sample.try_into().unwrap()));
    patterns.map(f32::from_bits).collect()
}

/// An engine, and the records of its calls so far, each with what it delivered behind it.
struct Recorder {
    engine: Continued,
    capture: Vec<u8>,
}

impl Recorder {
    fn new() -> Recorder {
        Recorder {
            engine: Continued::created(4, true),
            capture: Vec::new(),
        }
    }

    fn put(&mut self, kind: u32, payload: &[u8]) {
        let written = record::write(kind, payload, usize::MAX);
        assert_eq!(written.refusal, 0);
        self.capture.extend(written.bytes);
    }

    fn pairs(&mut self, pairs: &[u8]) {
        let out = self.engine.process(&side(pairs, 0), &side(pairs, 1));
        self.put(PAIRS, pairs);
        self.put(OUTPUT, &bytes(out.into_iter()));
    }

    fn flush(&mut self) {
        let out = self.engine.flush();
        self.put(FLUSH, &[]);
        self.put(OUTPUT, &bytes(out.into_iter()));
    }

    /// It delivers nothing, and no output follows.
    fn reset(&mut self) {
        self.engine.reset();
        self.put(RESET, &[]);
    }
}

/// With three bytes of a pair that does not come.
fn to_pack() -> Vec<u8> {
    let mut bytes = sound();
    bytes.extend([1, 2, 3]);
    bytes
}

fn packed(bytes: &[u8]) -> Vec<u8> {
    let mut recorder = Recorder::new();
    let whole = bytes.len() / PAIR * PAIR;
    for part in bytes[..whole].chunks(MOST_PAYLOAD) {
        recorder.pairs(part);
    }
    recorder.flush();
    recorder.capture
}

/// A largest record of pairs, an empty one, two flushes and a reset between them. At the end an output that no call gave, as large as may
/// be, of any bytes and with the strange numbers in front.
fn to_unpack() -> Vec<u8> {
    let sound = sound();
    let mut recorder = Recorder::new();
    recorder.pairs(&sound[..MOST_PAYLOAD]);
    recorder.pairs(&[]);
    recorder.pairs(&sound[PAIR * 600..PAIR * 700]);
    recorder.flush();
    recorder.reset();
    recorder.pairs(&sound[PAIR * 700..PAIR * 1_000]);
    recorder.flush();
    let mut output = noise8(0x9e37_79b9, MOST_PAYLOAD);
    let strange = STRANGE.iter().flat_map(|pattern| pattern.to_le_bytes());
    output.splice(..SAMPLE * STRANGE.len(), strange);
    recorder.put(OUTPUT, &output);
    recorder.capture
}

/// The payloads of one kind.
fn unpacked(capture: &[u8], kind: u32) -> Vec<u8> {
    let read = record::records(capture);
    assert_eq!(read.refusal, None);
    let of_kind = read.records.iter().filter(|record| record.kind == kind);
    of_kind.flat_map(|record| record.payload).copied().collect()
}

/// All kinds, empty ones and a largest one, a flush with nothing to deliver, and at the end a record whose last byte is missing.
fn to_show() -> Vec<u8> {
    let sound = sound();
    let mut recorder = Recorder::new();
    recorder.pairs(&sound[..PAIR * 3]);
    recorder.pairs(&[]);
    recorder.pairs(&sound[PAIR * 3..PAIR * 3 + MOST_PAYLOAD]);
    recorder.flush();
    recorder.reset();
    recorder.flush();
    recorder.pairs(&sound[PAIR * 515..PAIR * 771]);
    recorder.put(PAIRS, &sound[PAIR * 771..PAIR * 774]);
    recorder.capture.pop();
    recorder.capture
}

/// A line for each record: its number, its place, what it is, and how many it holds.
fn shown(capture: &[u8]) -> Vec<u8> {
    let read = record::records(capture);
    assert_eq!(read.refusal.map(|(number, _)| number), Some(9));
    let lines = read.records.iter().enumerate().map(|(number, record)| {
        let what = match record.kind {
            PAIRS => format!("pairs {}", record.payload.len() / PAIR),
            OUTPUT => format!("output {}", record.payload.len() / SAMPLE),
            FLUSH => "flush".to_string(),
            RESET => "reset".to_string(),
            other => panic!("no kind {other}"),
        };
        format!("{number} {} {what}\n", record.place)
    });
    lines.collect::<String>().into_bytes()
}

fn main() {
    let words: Vec<String> = std::env::args().skip(1).collect();
    let stdin = match words[0].as_str() {
        "pack" => to_pack(),
        "unpack" | "unpack_output" => to_unpack(),
        "records" => to_show(),
        other => panic!("no program {other}"),
    };
    let written = match (words[0].as_str(), words[1].as_str()) {
        (_, "stdin") => stdin,
        ("pack", "stdout") => packed(&stdin),
        ("unpack", "stdout") => unpacked(&stdin, PAIRS),
        ("unpack_output", "stdout") => unpacked(&stdin, OUTPUT),
        ("records", "stdout") => shown(&stdin),
        (_, other) => panic!("no file {other}"),
    };
    std::io::stdout().write_all(&written).unwrap();
}
