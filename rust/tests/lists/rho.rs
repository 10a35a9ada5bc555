//! Rho's list. What the fields of a line are: crates/rho_cases/src/main.rt and calls.rt.

use crate::inputs::{bits, bits32, halves, hash32};
use crate::kinds::FULL;
use crate::line::{lines, Line};
use crate::recipe::Recipe;
use crate::Owned;
use aspeyruni::raw::rho::{self, Answer, Report, RhoCanceller, Started};
use aspeyruni::{Refusal, Rho, RhoReport};

const LIST: &str = include_str!("../../../crates/rho_cases/stdin");

/// The size of the buffers of which a line lends the first part.
const MOST_TAPS: usize = 8200;

/// What a line leaves to the next, through `raw` and in an owner, where there is one.
struct Replay {
    state: RhoCanceller,
    buffers: [Vec<f32>; 2],
    owner: Option<Rho>,
    owned: Owned,
}

/// What a call of an owner came to: its answer, where it has a report, and the output buffer.
type Called = (Result<Option<RhoReport>, Refusal>, Option<Vec<f32>>);

#[test]
fn every_line_comes_to_its_answer() {
    let lines = lines(LIST, 22);
    let mut replay = Replay {
        state: RhoCanceller::default(),
        buffers: [0; 2].map(|_| vec![0.0; MOST_TAPS]),
        owner: None,
        owned: Owned::default(),
    };
    for line in &lines {
        replay.take(line);
    }
    assert_eq!(lines.len(), 825);
    let owned = Owned {
        taken: 710,
        refused: 115,
    };
    assert_eq!(replay.owned, owned);
}

fn lent(line: &Line) -> [usize; 2] {
    [line.high(6), line.low(6)]
}

fn parts<'a>([a, b]: &'a mut [Vec<f32>; 2], line: &Line) -> [&'a mut [f32]; 2] {
    let [i, j] = lent(line);
    [&mut a[..i], &mut b[..j]]
}

/// Noise, so that it shows where nothing is written.
fn stirred(line: &Line) -> Vec<f32> {
    Recipe::noise(1, FULL).samples(line.fields[8] as usize)
}

fn sounds(line: &Line) -> [Vec<f32>; 2] {
    let (given, heard) = (line.high(7), line.low(7));
    [line.recipe(0).samples(given), line.recipe(3).samples(heard)]
}

impl Replay {
    fn take(&mut self, line: &Line) {
        match line.letter {
            'c' => self.create(line),
            'p' | 'f' | 'r' => {
                self.call_owner(line);
                self.call_raw(line);
            }
            's' | 'w' => self.make(line),
            letter => panic!("line {}: no call is {letter}", line.number),
        }
    }

    /// An owner has the right buffers, so it is asked where the line is not about wrong ones.
    fn create(&mut self, line: &Line) {
        let (sample_rate, tail_ms) = (line.high(7) as u32, line.low(7) as u32);
        let [weights, history] = parts(&mut self.buffers, line);
        let answer = unreported(rho::create(sample_rate, tail_ms, weights, history));
        self.compare_raw(line, answer, None);
        self.owner = None;
        if answer.refusal == Refusal::Buffer.number() {
            self.owned.refused += 1;
        } else {
            let created = Rho::new(sample_rate, tail_ms);
            let called = created.as_ref().map(|_| None).map_err(|refusal| *refusal);
            self.owner = created.ok();
            self.compare_owner(line, (called, None));
        }
    }

    fn call_raw(&mut self, line: &Line) {
        let [weights, history] = parts(&mut self.buffers, line);
        let mut out = None;
        let answer = match line.letter {
            'p' => {
                let [near, far] = sounds(line);
                let out = out.insert(stirred(line));
                rho::process(self.state, weights, history, &near, &far, out)
            }
            'f' => rho::flush(self.state, weights, history),
            _ => unreported(rho::reset(self.state, weights, history)),
        };
        self.compare_raw(line, answer, out);
    }

    /// Through the owner of the lines before, or a new one of what the line starts from.
    fn call_owner(&mut self, line: &Line) {
        let fits = |rho: &&mut Rho| rho.buffers().map(<[f32]>::len) == lent(line);
        if self.owner.as_mut().filter(fits).is_none() {
            match self.owner_of_parts(line) {
                Ok(rho) => self.owner = Some(rho),
                Err(refusal) => {
                    assert_eq!(
                        refusal.number() as usize,
                        line.high(9),
                        "line {}",
                        line.number
                    );
                    self.owned.refused += 1;
                    return;
                }
            }
        }
        let called = call(self.owner.as_mut().expect("an owner"), line);
        self.compare_owner(line, called);
    }

    fn owner_of_parts(&mut self, line: &Line) -> Result<Rho, Refusal> {
        let buffers = parts(&mut self.buffers, line).map(|buffer| buffer.to_vec());
        Rho::from_parts(&self.state, buffers)
    }

    /// No call: the state and both buffers, or some weights, are made.
    fn make(&mut self, line: &Line) {
        let [weights, history] = parts(&mut self.buffers, line);
        let mut state = self.state;
        if line.letter == 's' {
            state = stored(line);
            weights.copy_from_slice(&line.recipe(0).samples(weights.len()));
            history.copy_from_slice(&line.recipe(3).samples(history.len()));
        } else {
            for field in 0..6 {
                if let Some(x) = weights.get_mut(line.high(field)) {
                    *x = f32::from_bits(line.low(field) as u32);
                }
            }
        }
        self.compare_raw(line, unreported(Started { refusal: 0, state }), None);
        self.owner = self.owner_of_parts(line).ok();
        if self.owner.is_some() {
            self.compare_owner(line, (Ok(None), None));
        } else {
            self.owned.refused += 1;
        }
    }

    /// Fields 9 to 21.
    fn compare_raw(&mut self, line: &Line, answer: Answer, out: Option<Vec<f32>>) {
        self.state = answer.state;
        let first = halves([answer.refusal as usize, answer.delivered]);
        let report = answer.report;
        let told = [first, report.divergence_resets, report.double_talk.into()];
        line.compare("raw", 9, &told);
        let buffers = parts(&mut self.buffers, line).map(|buffer| &*buffer);
        line.compare("raw", 12, &kept(&answer.state, buffers));
        line.compare("raw", 20, &heard(line, out));
    }

    /// The same, but for the report of a refused call, which an owner does not give.
    fn compare_owner(&mut self, line: &Line, (answer, out): Called) {
        self.owned.taken += 1;
        if let Some(rho) = &self.owner {
            line.compare("its owner", 12, &kept(rho.state(), rho.buffers()));
        }
        line.compare("its owner", 20, &heard(line, out));
        match answer {
            Ok(report) => compare_report(line, report),
            Err(refusal) => line.compare("its owner", 9, &[halves([refusal.number() as usize, 0])]),
        }
    }
}

fn call(rho: &mut Rho, line: &Line) -> Called {
    match line.letter {
        'p' => {
            let [near, far] = sounds(line);
            let mut out = stirred(line);
            let answer = rho.process(&near, &far, &mut out);
            (answer.map(Some), Some(out))
        }
        'f' => (Ok(Some(rho.flush())), None),
        _ => {
            rho.reset();
            (Ok(None), None)
        }
    }
}

/// Creation and reset report nothing, for which a line has zeros.
fn compare_report(line: &Line, report: Option<RhoReport>) {
    let nothing = RhoReport {
        delivered: 0,
        divergence_resets: 0,
        double_talk: false,
    };
    let report = report.unwrap_or(nothing);
    let delivered = halves([0, report.delivered]);
    let told = [
        delivered,
        report.divergence_resets,
        report.double_talk.into(),
    ];
    line.compare("its owner", 9, &told);
}

fn unreported(Started { refusal, state }: Started) -> Answer {
    Answer {
        refusal,
        delivered: 0,
        state,
        report: Report::default(),
    }
}

/// Fields 12 to 19: the state, and the hashes of what is lent of the buffers.
fn kept(s: &RhoCanceller, [weights, history]: [&[f32]; 2]) -> [u64; 8] {
    [
        s.taps as u64,
        s.pos as u64,
        halves([s.hangover_samples as usize, s.hangover_remaining as usize]),
        bits(s.near_power),
        bits(s.residual_power),
        s.divergence_resets,
        hash32(weights),
        hash32(history),
    ]
}

/// Fields 20 and 21: the output buffer's hash, and the samples at the first pair's place and at the last one's, of a process.
fn heard(line: &Line, out: Option<Vec<f32>>) -> [u64; 2] {
    let Some(out) = out else {
        return [0, 0];
    };
    let at = |pair: usize| pair.checked_sub(1).and_then(|i| out.get(i));
    let shown = [1, line.high(7)].map(|pair| at(pair).map_or(0, |x| bits32(*x) as usize));
    [hash32(&out), halves(shown)]
}

fn stored(line: &Line) -> RhoCanceller {
    RhoCanceller {
        taps: line.fields[12] as usize,
        pos: line.fields[13] as usize,
        hangover_samples: line.high(14) as u32,
        hangover_remaining: line.low(14) as u32,
        near_power: line.float(15),
        residual_power: line.float(16),
        divergence_resets: line.fields[17],
    }
}
