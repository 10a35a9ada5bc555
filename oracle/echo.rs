//! What the captures are made of: the room's echo, and the bytes of samples.

use crate::inputs::bits32;

/// The echo: so many samples later, and so loud.
const ECHO: [(usize, f32); 3] = [(17, 0.5), (140, 0.25), (600, 0.125)];

/// Near, with the echo of far besides.
pub fn add_echo(near: &mut [f32], far: &[f32]) {
    for (k, x) in near.iter_mut().enumerate() {
        for (delay, gain) in ECHO {
            if k >= delay {
                *x += gain * far[k - delay];
            }
        }
    }
}

/// A NaN as 7FC00000.
pub fn bytes(samples: impl Iterator<Item = f32>) -> Vec<u8> {
    samples.flat_map(|x| bits32(x).to_le_bytes()).collect()
}

/// Near and far in turn.
pub fn pairs(near: &[f32], far: &[f32]) -> Vec<u8> {
    bytes(near.iter().zip(far).flat_map(|(x, y)| [*x, *y]))
}
