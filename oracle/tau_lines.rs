//! A state of Tau as the fields of a line, and arrays by the recipes that a line has for them, as crates/tau_lines reads them.

#![allow(dead_code)] // a driver uses a part

use crate::aspeyruni::tau::{Detector, Lent, Paths, TauCanceller};
use crate::inputs::{bits, halves, hash, hash32, Noise};
use crate::inputs::{DIGITS, DIGITS32, SIGN, SIGN32, SIZES};
use crate::kinds::Kind;
use crate::tau_reference;

/// 1/16 to 1/8, and 2^-7 to 2^-6.
pub const LOW: Kind = [0x7b << 23, SIGN32 | DIGITS32];
pub const LOWER: Kind = [0x78 << 23, SIGN32 | DIGITS32];

/// Kinds of f64s, by base and mask: 2^-15 to 2 in size; the same, none negative; the same, all negative; 2^113 to 2^129, about the largest
/// f32; 2^1008 to 2^1023; subnormal; infinite or 1; NaN, not signalling (kinds.rs), or 1.5 to 2.
pub const SOUND64: Kind = [0x3ff << 52, SIGN | SIZES | DIGITS];
pub const POWER64: Kind = [0x3ff << 52, SIZES | DIGITS];
pub const NEGATIVE64: Kind = [SIGN | 0x3ff << 52, SIZES | DIGITS];
pub const OVER64: Kind = [0x47f << 52, SIGN | SIZES | DIGITS];
pub const LARGE64: Kind = [0x7fe << 52, SIGN | SIZES | DIGITS];
pub const SUBNORMAL64: Kind = [0, SIGN | DIGITS];
pub const INFINITE64: Kind = [0x7ff << 52, SIGN | 0x400 << 52];
pub const NAN64: Kind = [0xfff << 51, SIGN | 0x400 << 52 | DIGITS >> 1];

/// What false powers are made of.
pub const FALSE64: [Kind; 6] = [NEGATIVE64, LARGE64, NAN64, SOUND64, SUBNORMAL64, INFINITE64];

/// The arrays, by the numbers that a line has for them.
pub const NEAR_CARRY: u64 = 0;
pub const FAR_CARRY: u64 = 1;
pub const WINDOW: u64 = 2;
pub const MEAN: u64 = 3;
pub const ECHO: u64 = 4;
pub const ERROR: u64 = 5;
pub const GAIN: u64 = 6;
pub const ERROR_WINDOW: u64 = 7;
pub const SHADOW: u64 = 8;
pub const OUTPUT: u64 = 9;
pub const SPECTRA: u64 = 10;
pub const POWERS: u64 = 11;

/// How an array is made: noise, with one number of its own where the array has the place.
#[derive(Clone, Copy)]
pub struct Recipe64 {
    pub word: u64,
    pub kind: Kind,
    pub place: u64,
    pub mark: u64,
}

impl Recipe64 {
    pub fn noise(word: u64, kind: Kind) -> Recipe64 {
        Recipe64 {
            word,
            kind,
            place: u64::MAX,
            mark: 0,
        }
    }

    /// With that number at that place.
    pub fn with(self, place: u64, mark: u64) -> Recipe64 {
        Recipe64 {
            place,
            mark,
            ..self
        }
    }

    /// One number all over.
    pub fn one(x: f64) -> Recipe64 {
        Recipe64::noise(0, [x.to_bits(), 0])
    }

    /// One number alone, by its bits, and +0.0 all over else.
    pub fn alone(place: u64, mark: u64) -> Recipe64 {
        Recipe64::one(0.0).with(place, mark)
    }

    pub fn fields(self, array: u64) -> [u64; 8] {
        let [base, mask] = self.kind;
        [self.word, base, mask, self.place, self.mark, array, 0, 0]
    }

    /// With spectra their powers are made, so that these are true. Powers that are made alone are false as a rule.
    pub fn make(self, array: u64, s: &mut TauCanceller, lent: Lent) {
        let (word, [base, mask]) = (self.word, self.kind);
        let mut noise = Noise { word, base, mask };
        let [shadow, output, spectra, powers] = lent;
        let q = &mut s.mic.suppressor;
        let samples: Option<&mut [f32]> = match array {
            NEAR_CARRY => Some(&mut s.near_carry),
            FAR_CARRY => Some(&mut s.far_carry),
            WINDOW => Some(&mut s.far.window),
            ERROR_WINDOW => Some(&mut q.error_window),
            _ => None,
        };
        if let Some(samples) = samples {
            samples.fill_with(|| noise.sample());
            if let Some(x) = samples.get_mut(self.place as usize) {
                *x = f32::from_bits(self.mark as u32);
            }
            return;
        }
        let numbers: &mut [f64] = match array {
            MEAN => &mut s.mic.far_power_mean,
            ECHO => &mut q.echo_power,
            ERROR => &mut q.error_power,
            GAIN => &mut q.gain,
            SHADOW => shadow,
            OUTPUT => output,
            SPECTRA => &mut *spectra,
            _ => &mut *powers,
        };
        numbers.fill_with(|| noise.number());
        if let Some(x) = numbers.get_mut(self.place as usize) {
            *x = f64::from_bits(self.mark);
        }
        if array == SPECTRA {
            work_out(spectra, powers);
        }
    }
}

/// Each bin's power from its spectrum (request K10), as far as both go.
pub fn work_out(spectra: &[f64], powers: &mut [f64]) {
    for (power, bin) in powers.iter_mut().zip(spectra.chunks_exact(2)) {
        *power = bin[0] * bin[0] + bin[1] * bin[1];
    }
}

/// The first part of each buffer, so much of it.
pub fn lend(buffers: &mut [Vec<f64>; 4], lent: [usize; 4]) -> Lent<'_> {
    let [a, b, c, d] = buffers;
    let [i, j, k, l] = lent;
    [&mut a[..i], &mut b[..j], &mut c[..k], &mut d[..l]]
}

/// Fields 11 to 38: the numbers of the state that are in no array, then its arrays and what is lent of the buffers. The powers have a field
/// of their own behind these, in either list.
pub fn fields(s: &TauCanceller, [shadow, output, spectra, _]: [&[f64]; 4]) -> Vec<u64> {
    let q = &s.mic.suppressor;
    let arrays = [
        hash32(&s.near_carry),
        hash32(&s.far_carry),
        hash32(&s.far.window),
        hash(&s.mic.far_power_mean),
        hash(&q.echo_power),
        hash(&q.error_power),
        hash(&q.gain),
        hash32(&q.error_window),
        hash(shadow),
        hash(output),
        hash(spectra),
    ];
    scalars(s).into_iter().chain(arrays).collect()
}

/// The numbers of the state that are in no array, as fields 11 to 27.
pub fn scalars(s: &TauCanceller) -> [u64; 17] {
    let m = &s.mic;
    let (d, p) = (m.detector, m.paths);
    let flags = [
        s.suppress,
        s.far.far_active,
        d.double_talk,
        d.dtd_collapsed,
        d.protect_output,
    ];
    let flags = flags
        .iter()
        .rev()
        .fold(0, |sum, is| 2 * sum + usize::from(*is));
    [
        halves([s.partitions, s.carried]),
        halves([s.far.head, flags]),
        bits(s.far.far_energy_peak),
        halves([d.dtd_blocks as usize, p.rescue_streak as usize]),
        bits(d.dtd_baseline),
        bits(d.dtd_deviation),
        bits(d.coherence_smooth),
        bits(d.step_scale),
        bits(p.shadow_error_power),
        bits(p.output_error_power),
        p.quiet_streak.into(),
        bits(m.guard.divergence_near_power),
        bits(m.guard.divergence_out_power),
        bits(m.powers.near_power),
        bits(m.powers.residual_power),
        m.transfers,
        m.divergence_resets,
    ]
}

/// Those of them that are flags, but for the setting.
pub fn flags(s: &mut TauCanceller) -> [&mut bool; 4] {
    let d = &mut s.mic.detector;
    [
        &mut s.far.far_active,
        &mut d.double_talk,
        &mut d.dtd_collapsed,
        &mut d.protect_output,
    ]
}

/// Those that are f64s.
pub fn floats(s: &mut TauCanceller) -> [&mut f64; 11] {
    let m = &mut s.mic;
    [
        &mut s.far.far_energy_peak,
        &mut m.detector.dtd_baseline,
        &mut m.detector.dtd_deviation,
        &mut m.detector.coherence_smooth,
        &mut m.detector.step_scale,
        &mut m.paths.shadow_error_power,
        &mut m.paths.output_error_power,
        &mut m.guard.divergence_near_power,
        &mut m.guard.divergence_out_power,
        &mut m.powers.near_power,
        &mut m.powers.residual_power,
    ]
}

/// As after an echo that was learnt, but with all arrays fresh.
pub fn established(partitions: usize) -> TauCanceller {
    let mut s = tau_reference::fresh(partitions, true);
    s.far.far_active = true;
    s.far.far_energy_peak = 50.0;
    let m = &mut s.mic;
    m.detector = Detector {
        dtd_blocks: 64,
        dtd_baseline: 0.6,
        dtd_deviation: 0.01,
        coherence_smooth: 0.9,
        step_scale: 1.0,
        ..Detector::default()
    };
    m.paths = Paths {
        shadow_error_power: 1.0,
        output_error_power: 2.0,
        quiet_streak: 5,
        rescue_streak: 0,
    };
    m.guard.divergence_near_power = 4.0;
    m.guard.divergence_out_power = 1.0;
    s
}
