//! The captures that the programs `aec` and `aec_three` run on, and what the Rust, completed by document 01 (oracle/rust,
//! tau_reference.rs), makes of them with four partitions and suppression. `oracle/lists` has it write the files: capture WORD, where WORD
//! is `long` or `three`, and then `stdin` or `stdout`.

mod aspeyruni;
#[allow(dead_code)] // the Rust's text, whole
mod canceller;
mod config;
mod echo;
mod error;
#[allow(dead_code)]
mod fft;
mod house_detector;
mod inputs;
mod kinds;
#[allow(dead_code)]
mod rust_tau;
mod taken;
#[allow(dead_code)]
mod tau_calls;
#[allow(dead_code)]
mod tau_lines;
#[allow(dead_code)]
mod tau_reference;

use echo::{add_echo, bytes, pairs};
use kinds::*;
use std::io::Write;
use tau_reference::Continued;

/// Near and far.
type Capture = (Vec<f32>, Vec<f32>);

const BLOCK: usize = 256;
/// For so many pairs the far end is silent.
const SILENT: usize = 6 * BLOCK + 100;

/// A hundred blocks and a remainder: a sound in the room over a silent far end, then the far end's echo over it.
fn long() -> Capture {
    let count = 100 * BLOCK + 77;
    let mut near = samples(0x9e37_79b9, QUARTER, count);
    let mut far = samples(0x7f4a_7c15, FULL, count);
    far[..SILENT].fill(0.0);
    // its own sound stops for a while, so that the echo is heard alone
    near[10 * BLOCK..90 * BLOCK]
        .iter_mut()
        .for_each(|x| *x *= 0.015625);
    add_echo(&mut near, &far);
    (near, far)
}

/// Document 01's case.
fn three() -> Capture {
    (vec![1.0, -0.0, f32::NAN], vec![0.0; 3])
}

fn main() {
    let words: Vec<String> = std::env::args().skip(1).collect();
    let (near, far) = match words[0].as_str() {
        "long" => long(),
        "three" => three(),
        other => panic!("no capture {other}"),
    };
    let written = match words[1].as_str() {
        "stdin" => pairs(&near, &far),
        "stdout" => {
            let mut engine = Continued::created(4, true);
            let mut out = engine.process(&near, &far);
            out.extend(engine.flush());
            let (transfers, resets, _) = engine.report();
            eprintln!(
                "{} samples, {transfers} transfers, {resets} resets",
                out.len()
            );
            bytes(out.into_iter())
        }
        other => panic!("no file {other}"),
    };
    std::io::stdout().write_all(&written).unwrap();
}
