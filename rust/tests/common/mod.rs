//! What more than one of the tests needs.

/// Sound of either sign, below 1 in size, and another for each seed.
pub fn sound(seed: u32, count: usize) -> Vec<f32> {
    let mut word = seed;
    let mut next = || {
        word = word.wrapping_mul(1_664_525).wrapping_add(1_013_904_223);
        (word >> 8) as f32 / (1 << 23) as f32 - 1.0
    };
    (0..count).map(|_| next()).collect()
}
