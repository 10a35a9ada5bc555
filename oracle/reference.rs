//! The Rust's transform, called as the port is: over plain buffers, real part then imaginary, with document 01's refusal where
//! the Rust panics.

#![allow(dead_code)] // a driver uses a part

use crate::fft::{Complex, ComplexFft, RealFft};

pub const DONE: u32 = 0;
pub const WRONG_LENGTH: u32 = 2;

pub const SAMPLES: usize = 512;
pub const SPECTRUM: usize = 514;
pub const POINTS: usize = 512;

/// What a transform answers: an inverse, how many of its 512 samples went over besides (request K8).
#[derive(Clone, Copy, Debug, PartialEq)]
pub struct Inverted {
    pub refusal: u32,
    pub overs: usize,
}

impl Inverted {
    /// Where none did.
    pub fn of(refusal: u32) -> Inverted {
        Inverted { refusal, overs: 0 }
    }
}

pub struct Reference {
    pub real: RealFft,
    complex: ComplexFft,
}

impl Reference {
    pub fn new() -> Reference {
        Reference {
            real: RealFft::new(SAMPLES),
            complex: ComplexFft::new(POINTS / 2),
        }
    }

    pub fn forward(&mut self, input: &[f32], out: &mut [f64]) -> u32 {
        if input.len() != SAMPLES || out.len() != SPECTRUM {
            return WRONG_LENGTH;
        }
        let mut bins = Vec::new();
        self.real.forward(input, &mut bins);
        out.copy_from_slice(&numbers(&bins));
        DONE
    }

    pub fn inverse(&mut self, spectrum: &[f64], out: &mut [f32]) -> Inverted {
        if spectrum.len() != SPECTRUM || out.len() != SAMPLES {
            return Inverted::of(WRONG_LENGTH);
        }
        let mut samples = Vec::new();
        self.real.inverse(&complexes(spectrum), &mut samples);
        out.copy_from_slice(&samples);
        Inverted {
            refusal: DONE,
            overs: self.real.overs.iter().sum::<u32>() as usize,
        }
    }

    pub fn complex_forward(&mut self, points: &mut [f64]) -> u32 {
        self.in_place(points, ComplexFft::forward)
    }

    pub fn complex_inverse(&mut self, points: &mut [f64]) -> u32 {
        self.in_place(points, ComplexFft::inverse)
    }

    fn in_place(&self, points: &mut [f64], run: fn(&ComplexFft, &mut [Complex])) -> u32 {
        if points.len() != POINTS {
            return WRONG_LENGTH;
        }
        let mut buffer = complexes(points);
        run(&self.complex, &mut buffer);
        points.copy_from_slice(&numbers(&buffer));
        DONE
    }
}

pub fn complexes(numbers: &[f64]) -> Vec<Complex> {
    numbers
        .chunks_exact(2)
        .map(|z| Complex::new(z[0], z[1]))
        .collect()
}

pub fn numbers(complexes: &[Complex]) -> Vec<f64> {
    complexes.iter().flat_map(|z| [z.re, z.im]).collect()
}
