//! Kinds of samples, by base and mask.

#![allow(dead_code)] // a driver uses a part

use crate::inputs::{Noise, DIGITS32, SIGN32, SIZES32};

pub type Kind = [u64; 2];

/// With -0.0 strewn in.
pub const SILENCE: Kind = [0, SIGN32];
pub const SOUND: Kind = [0x7f << 23, SIGN32 | SIZES32 | DIGITS32];
/// 1 to 2, 1/4 to 1/2, 8 to 16, and 2^-31 to 2^-15.
pub const FULL: Kind = [0x7f << 23, SIGN32 | DIGITS32];
pub const QUARTER: Kind = [0x7d << 23, SIGN32 | DIGITS32];
pub const LOUD: Kind = [0x82 << 23, SIGN32 | DIGITS32];
pub const FAINT: Kind = [0x6f << 23, SIGN32 | SIZES32 | DIGITS32];
/// 2^30 to 2^31.
pub const LOUDER: Kind = [0x9d << 23, SIGN32 | DIGITS32];
/// The zeros and three subnormal sizes, all subnormal ones, and those up to 2^-111.
pub const LEAST: Kind = [0, SIGN32 | 3];
pub const SUBNORMAL: Kind = [0, SIGN32 | DIGITS32];
pub const SMALL: Kind = [0, SIGN32 | SIZES32 | DIGITS32];
/// 2^127 to 2^128, and 2^113 to 2^128.
pub const HUGE: Kind = [0xfe << 23, SIGN32 | DIGITS32];
pub const LARGE: Kind = [0xfe << 23, SIGN32 | SIZES32 | DIGITS32];
/// Infinite, or of size 1.
pub const INFINITE: Kind = [0xff << 23, SIGN32 | 0x80 << 23];
/// NaN, or of a size from 1.5 to 2. No NaN is signalling: of one and a number Rust's `max` gives a NaN on Arm, against its own pages.
pub const NAN: Kind = [0x1ff << 22, SIGN32 | 0x80 << 23 | DIGITS32 >> 1];
/// Any pattern, with signalling NaNs among them.
pub const ANY: Kind = [0, 0xffff_ffff];

pub fn samples(word: u64, [base, mask]: Kind, count: usize) -> Vec<f32> {
    let mut noise = Noise { word, base, mask };
    (0..count).map(|_| noise.sample()).collect()
}
