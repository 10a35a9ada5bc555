//! What was compared under one name, and how many differ.

#![allow(dead_code)] // a driver uses a part

use crate::inputs::bits;

#[derive(Default)]
pub struct Tally {
    compared: u64,
    nan: u64,
    differ: u64,
}

impl Tally {
    pub fn one(&mut self, port: f64, rust: f64) {
        self.nan += u64::from(rust.is_nan());
        self.call(bits(port) == bits(rust));
    }

    /// And whether none differs.
    pub fn all(&mut self, port: &[f64], rust: &[f64]) -> bool {
        let before = self.differ;
        port.iter().zip(rust).for_each(|(x, y)| self.one(*x, *y));
        self.differ == before
    }

    pub fn samples(&mut self, port: &[f32], rust: &[f32]) -> bool {
        let before = self.differ;
        for (x, y) in port.iter().zip(rust) {
            self.one((*x).into(), (*y).into());
        }
        self.differ == before
    }

    /// An answer is no number, but it may differ.
    pub fn answer(&mut self, port: u32, rust: u32) {
        self.differ += u64::from(port != rust);
    }

    /// A call, with all that it answers.
    pub fn call(&mut self, is_same: bool) {
        self.compared += 1;
        self.differ += u64::from(!is_same);
    }

    pub fn compared(&self) -> u64 {
        self.compared
    }

    pub fn tell(&self, name: &str) {
        let nan = self.nan;
        self.tell_of(name, "numbers", &format!(", {nan} of them NaN"));
    }

    pub fn tell_calls(&self, name: &str) {
        self.tell_of(name, "calls", "");
    }

    /// Where nothing was compared it does not say that nothing differs.
    fn tell_of(&self, name: &str, what: &str, more: &str) {
        let Tally {
            compared, differ, ..
        } = self;
        if *compared == 0 {
            println!("{name}: no {what} compared");
        } else {
            println!("{name}: {compared} {what} compared{more}, {differ} differ");
        }
    }
}
