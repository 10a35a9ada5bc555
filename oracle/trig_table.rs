//! Writes the constant of crates/trig/src/tables.rt: the 514 numbers of the recombination table, real part then imaginary part of
//! each of the 257 entries, as the Rust computes them. Each is the shortest decimal that reads back as the same f64.
//!
//! det_sin and det_cos are cut from the Rust text when this is built; no copy of them is kept here. From the repository's root,
//! with that text in ../shared:
//!
//!     mkdir -p build
//!     sed -n -e '/^use std::f64::consts::PI;/p' -e '/^const /p' -e '/^fn det_sin/,/^}/p' -e '/^fn det_cos/,/^}/p' \
//!         ../shared/src--src--fft.rs.txt >build/trig_cut.rs
//!     TRIG_CUT=../build/trig_cut.rs rustc --edition 2021 -O -o build/trig_table oracle/trig_table.rs
//!     build/trig_table | diff - <(sed -n '/^const RECOMBINATION/,/^];/p' crates/trig/src/tables.rt)

include!(env!("TRIG_CUT"));

/// The angle of entry k, as `RealFft::new(512)` has it.
fn theta(k: usize) -> f64 {
    let n: usize = 512;
    -TWO_PI * (k as f64) / (n as f64)
}

fn main() {
    println!("const RECOMBINATION: [f64; 514] = [");
    for k in 0..=256 {
        println!("    {:?},", det_cos(theta(k)));
        println!("    {:?},", det_sin(theta(k)));
    }
    println!("];");
}
