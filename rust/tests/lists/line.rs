//! The lines of a list: a letter, and fields of 16 hex digits, each after a blank.

use crate::recipe::Recipe;

pub struct Line {
    /// Counted from 1.
    pub number: usize,
    pub letter: char,
    pub fields: Vec<u64>,
}

/// Where all lines have so many fields.
pub fn lines(list: &str, fields: usize) -> Vec<Line> {
    let lines = list.lines().enumerate();
    lines
        .map(|(i, line)| {
            let line = Line::of(i + 1, line);
            assert_eq!(line.fields.len(), fields, "line {}", line.number);
            line
        })
        .collect()
}

impl Line {
    fn of(number: usize, line: &str) -> Line {
        let (letter, digits) = line.split_at(1);
        let fields = digits.split(' ').skip(1).map(|digits| {
            assert_eq!(digits.len(), 16, "line {number}");
            u64::from_str_radix(digits, 16).expect("hex digits")
        });
        Line {
            number,
            letter: letter.chars().next().expect("a letter"),
            fields: fields.collect(),
        }
    }

    /// Of a field that is two halves.
    pub fn high(&self, field: usize) -> usize {
        (self.fields[field] >> 32) as usize
    }

    pub fn low(&self, field: usize) -> usize {
        self.fields[field] as u32 as usize
    }

    /// The bits of an f64.
    pub fn float(&self, field: usize) -> f64 {
        f64::from_bits(self.fields[field])
    }

    /// How samples are made, by three fields from `at` on.
    pub fn recipe(&self, at: usize) -> Recipe {
        Recipe {
            seed: self.fields[at],
            kind: [self.high(at + 1) as u64, self.low(at + 1) as u64],
            place: self.high(at + 2) as u32,
            mark: self.low(at + 2) as u32,
        }
    }

    /// That fields from `at` on are these.
    pub fn compare(&self, by: &str, at: usize, got: &[u64]) {
        for (k, got) in got.iter().enumerate() {
            let (field, want) = (at + k, self.fields[at + k]);
            assert_eq!(
                *got, want,
                "line {} by {by}: field {field} is {got:016x}, and the list has {want:016x}",
                self.number
            );
        }
    }
}
