//! What echo.c does, from a Rust host: pairs from standard input, near then far, as f32s, through TauCanceller with four partitions and
//! suppression, and the samples to standard output as f32s. Where something fails, a line on standard error says what, and the status
//! is 1.

#[path = "../include/aspeyruni.rs"]
mod aspeyruni;

use aspeyruni::tau::{self, Answer};
use aspeyruni::{refusal, MAX_PAIRS};
use std::io::{self, Read, Write};
use std::process::ExitCode;

const PARTITIONS: usize = 4;
const NUMBERS: usize = tau::NUMBERS * PARTITIONS;
const POWERS: usize = tau::BINS * PARTITIONS;
const READ: usize = 8 * MAX_PAIRS;

fn accepted(number: u32) -> Result<(), String> {
    match number {
        refusal::ACCEPTED => Ok(()),
        _ => Err(format!("refusal {number}")),
    }
}

fn give(answer: &Answer, out: &[f32], to: &mut impl Write) -> Result<(), String> {
    accepted(answer.refusal)?;
    let samples = out[..answer.delivered].iter();
    let bytes: Vec<u8> = samples.flat_map(|x| x.to_le_bytes()).collect();
    to.write_all(&bytes)
        .map_err(|why| format!("a write failed: {why}"))
}

/// The whole pairs among the bytes; an unfinished last one is dropped.
fn pairs_of(bytes: &[u8]) -> (Vec<f32>, Vec<f32>) {
    let sample = |b: &[u8]| f32::from_le_bytes([b[0], b[1], b[2], b[3]]);
    let pairs = bytes.chunks_exact(8);
    pairs.map(|b| (sample(&b[..4]), sample(&b[4..]))).unzip()
}

fn run(mut from: impl Read, mut to: impl Write) -> Result<(), String> {
    let [shadow, output, spectra] = &mut [[0.0; NUMBERS]; 3];
    let powers = &mut [0.0; POWERS];
    let mut out = [0.0; tau::room(MAX_PAIRS)];
    let started = tau::create(PARTITIONS, true, [shadow, output, spectra, powers]);
    accepted(started.refusal)?;
    let mut answer: Answer = started.into();
    let end = loop {
        let mut bytes = Vec::with_capacity(READ);
        let read = from.by_ref().take(READ as u64).read_to_end(&mut bytes);
        let (near, far) = pairs_of(&bytes); // after a failed read too: what was read is delivered
        let lent = [&mut shadow[..], &mut output[..], &mut spectra[..], powers];
        tau::process_on(&mut answer, lent, &near, &far, &mut out);
        give(&answer, &out, &mut to)?;
        match read {
            Ok(READ) => {}
            Ok(_) => break Ok(()),
            Err(why) => break Err(format!("a read failed: {why}")),
        }
    };
    let last = tau::flush(answer.state, [shadow, output, spectra, powers], &mut out);
    give(&last, &out, &mut to)?;
    to.flush().map_err(|why| format!("a write failed: {why}"))?;
    end
}

fn main() -> ExitCode {
    match run(io::stdin().lock(), io::stdout().lock()) {
        Ok(()) => ExitCode::SUCCESS,
        Err(why) => {
            // Where standard error is closed as well, the status has to say it.
            let _ = writeln!(io::stderr(), "echo: {why}");
            ExitCode::FAILURE
        }
    }
}
