//! The program's own capture through `Tau`, in calls of several sizes: each comes to the samples that the program writes, byte for byte.

use aspeyruni::{Tau, MAX_PAIRS};

/// Near then far, and what comes of them: f32s, the least byte first.
const PAIRS: &[u8] = include_bytes!("../../crates/aec/stdin");
const SAMPLES: &[u8] = include_bytes!("../../crates/aec/stdout");

fn samples(bytes: &[u8]) -> Vec<f32> {
    assert_eq!(bytes.len() % 4, 0, "the last sample is cut short");
    let parts = bytes.chunks_exact(4);
    parts
        .map(|b| f32::from_le_bytes([b[0], b[1], b[2], b[3]]))
        .collect()
}

/// As the program runs it: four partitions, and suppression.
fn cancelled(near: &[f32], far: &[f32], size: usize) -> Vec<u8> {
    let mut tau = Tau::new(4, true).unwrap();
    let mut out = vec![0.0; Tau::room(size)];
    let mut bytes = Vec::new();
    let mut write = |samples: &[f32]| bytes.extend(samples.iter().flat_map(|x| x.to_le_bytes()));
    for (near, far) in near.chunks(size).zip(far.chunks(size)) {
        let report = tau.process(near, far, &mut out).unwrap();
        write(&out[..report.delivered]);
    }
    let report = tau.flush(&mut out).unwrap();
    write(&out[..report.delivered]);
    bytes
}

#[test]
fn the_capture_comes_to_the_programs_samples() {
    let (near, far): (Vec<f32>, Vec<f32>) = samples(PAIRS)
        .chunks_exact(2)
        .map(|pair| (pair[0], pair[1]))
        .unzip();
    assert_eq!(near.len(), SAMPLES.len() / 4);
    for size in [1, 160, 256, MAX_PAIRS] {
        let bytes = cancelled(&near, &far, size);
        assert_eq!(bytes.len(), SAMPLES.len(), "{size} pairs a call");
        let differs = bytes.iter().zip(SAMPLES).position(|(a, b)| a != b);
        assert_eq!(
            differs, None,
            "{size} pairs a call: the first byte that differs"
        );
    }
}
