//! Tau's list. What the fields of a line are: crates/tau_cases/src/main.rt, calls.rt and crates/tau_lines/src/lib.rt.

use crate::inputs::{bits, halves, hash, hash32};
use crate::kinds::FULL;
use crate::line::{lines, Line};
use crate::recipe::{Recipe, Sounds};
use crate::tau_lines::{fields, lend, Recipe64};
use crate::Owned;
use aspeyruni::raw::tau::{self, outcome, reason, Answer, Detector, Guard};
use aspeyruni::raw::tau::{Paths, Powers, Started, TauCanceller};
use aspeyruni::{Outcome, Reason, Refusal, Report, Tau};

const LIST: &str = include_str!("../../../crates/tau_cases/stdin");

/// The sizes of the buffers of which a line lends the first part.
const MOST_NUMBERS: [usize; 4] = [16456, 16456, 16456, 8232];
const MOST_SAMPLES: usize = 4104;

/// What a line leaves to the next, through `raw` and in an owner, where there is one.
struct Replay {
    state: TauCanceller,
    buffers: [Vec<f64>; 4],
    owner: Option<Tau>,
    owned: Owned,
}

/// What a call of an owner came to: its answer, where it has a report, and the output buffer's hash.
type Called = (Result<Option<Report>, Refusal>, u64);

#[test]
fn every_line_comes_to_its_answer() {
    let lines = lines(LIST, 47);
    let mut replay = Replay {
        state: *Tau::new(1, false).unwrap().state(),
        buffers: MOST_NUMBERS.map(|most| vec![0.0; most]),
        owner: None,
        owned: Owned::default(),
    };
    for line in &lines {
        replay.take(line);
    }
    assert_eq!(lines.len(), 1027);
    let owned = Owned {
        taken: 911,
        refused: 116,
    };
    assert_eq!(replay.owned, owned);
}

fn lent(line: &Line) -> [usize; 4] {
    let powers = line.fields[45] as usize;
    [line.high(39), line.low(39), line.high(40), powers]
}

fn parts<'a>(buffers: &'a mut [Vec<f64>; 4], line: &Line) -> tau::Lent<'a> {
    lend(buffers, lent(line))
}

/// Noise, so that it shows where nothing is written.
fn stirred(line: &Line) -> Vec<f32> {
    Recipe::noise(1, FULL).samples(line.low(40))
}

fn sounds(line: &Line) -> [Vec<f32>; 2] {
    let sounds = Sounds {
        near: line.recipe(0),
        far: line.recipe(3),
        gain: f32::from_bits(line.low(7) as u32),
    };
    let [mut near, mut far] = sounds.samples(MOST_SAMPLES);
    near.truncate(line.high(6));
    far.truncate(line.low(6));
    [near, far]
}

impl Replay {
    fn take(&mut self, line: &Line) {
        match line.letter {
            'c' => self.create(line),
            'p' | 'f' | 'r' => {
                self.call_owner(line);
                self.call_raw(line);
            }
            's' | 'a' => self.make(line),
            letter => panic!("line {}: no call is {letter}", line.number),
        }
    }

    /// An owner has the right buffers, so it is asked where the line is not about wrong ones.
    fn create(&mut self, line: &Line) {
        let (partitions, suppress) = (line.fields[0] as usize, line.fields[1] != 0);
        let lent = parts(&mut self.buffers, line);
        let answer = unreported(tau::create(partitions, suppress, lent));
        self.compare_raw(line, answer, 0);
        self.owner = None;
        if answer.refusal == Refusal::Buffer.number() {
            self.owned.refused += 1;
        } else {
            let created = Tau::new(partitions, suppress);
            let called = created.as_ref().map(|_| None).map_err(|refusal| *refusal);
            self.owner = created.ok();
            self.compare_owner(line, (called, 0));
        }
    }

    fn call_raw(&mut self, line: &Line) {
        let mut out = stirred(line);
        let lent = parts(&mut self.buffers, line);
        let answer = match line.letter {
            'p' => {
                let [near, far] = sounds(line);
                tau::process(self.state, lent, &near, &far, &mut out)
            }
            'f' => tau::flush(self.state, lent, &mut out),
            _ => unreported(tau::reset(self.state, lent)),
        };
        let hash = if line.letter == 'r' { 0 } else { hash32(&out) };
        self.compare_raw(line, answer, hash);
    }

    /// Through the owner of the lines before, or a new one of what the line starts from.
    fn call_owner(&mut self, line: &Line) {
        let fits = |tau: &&mut Tau| tau.buffers().map(<[f64]>::len) == lent(line);
        if self.owner.as_mut().filter(fits).is_none() {
            match self.owner_of_parts(line) {
                Ok(tau) => self.owner = Some(tau),
                Err(refusal) => {
                    assert_eq!(
                        refusal.number() as usize,
                        line.high(41),
                        "line {}",
                        line.number
                    );
                    self.owned.refused += 1;
                    return;
                }
            }
        }
        let called = call(self.owner.as_mut().expect("an owner"), line);
        self.compare_owner(line, called);
    }

    fn owner_of_parts(&mut self, line: &Line) -> Result<Tau, Refusal> {
        let buffers = parts(&mut self.buffers, line).map(|buffer| buffer.to_vec());
        Tau::from_parts(&self.state, buffers)
    }

    /// No call: numbers of the state, or an array, are made.
    fn make(&mut self, line: &Line) {
        let mut state = self.state;
        if line.letter == 's' {
            set(&mut state, line);
        } else {
            let recipe = Recipe64 {
                word: line.fields[0],
                kind: [line.fields[1], line.fields[2]],
                place: line.fields[3],
                mark: line.fields[4],
            };
            let lent = parts(&mut self.buffers, line);
            recipe.make(line.fields[5], &mut state, lent);
        }
        self.compare_raw(line, unreported(Started { refusal: 0, state }), 0);
        self.owner = self.owner_of_parts(line).ok();
        if self.owner.is_some() {
            self.compare_owner(line, (Ok(None), 0));
        } else {
            self.owned.refused += 1;
        }
    }

    /// Fields 8 to 38, 41 to 44 and 46, and that the outcome is the one that the reason has.
    fn compare_raw(&mut self, line: &Line, answer: Answer, hash: u64) {
        self.state = answer.state;
        let buffers = parts(&mut self.buffers, line).map(|buffer| &*buffer);
        let verdict = [answer.double_talk.into(), answer.outcome as usize];
        line.compare("raw", 8, &[halves(verdict), bits(answer.leak), hash]);
        compare_engine(line, "raw", &answer.state, buffers);
        let first = halves([answer.refusal as usize, answer.delivered]);
        let last = [first, answer.transfers, answer.divergence_resets];
        line.compare("raw", 41, &last);
        line.compare("raw", 44, &[because(answer.reason, answer.overs)]);
        let outcome = outcome_of(answer.reason);
        assert_eq!(answer.outcome, outcome, "line {}", line.number);
    }

    /// The same, but for the report of a refused call, which an owner does not give.
    fn compare_owner(&mut self, line: &Line, (answer, hash): Called) {
        self.owned.taken += 1;
        line.compare("its owner", 10, &[hash]);
        if let Some(tau) = &self.owner {
            compare_engine(line, "its owner", tau.state(), tau.buffers());
        }
        match answer {
            Ok(report) => compare_report(line, report),
            Err(refusal) => {
                line.compare("its owner", 41, &[halves([refusal.number() as usize, 0])])
            }
        }
    }
}

/// Fields 11 to 38, and the powers' field 46.
fn compare_engine(line: &Line, by: &str, state: &TauCanceller, buffers: [&[f64]; 4]) {
    line.compare(by, 11, &fields(state, buffers));
    line.compare(by, 46, &[hash(buffers[3])]);
}

fn call(tau: &mut Tau, line: &Line) -> Called {
    let mut out = stirred(line);
    let answer = match line.letter {
        'p' => {
            let [near, far] = sounds(line);
            tau.process(&near, &far, &mut out)
        }
        'f' => tau.flush(&mut out),
        _ => {
            tau.reset();
            return (Ok(None), 0);
        }
    };
    (answer.map(Some), hash32(&out))
}

/// Creation and reset report nothing, for which a line has zeros.
fn compare_report(line: &Line, report: Option<Report>) {
    let nothing = Report {
        delivered: 0,
        transfers: 0,
        divergence_resets: 0,
        double_talk: false,
        outcome: Outcome::NotRun,
        reason: Reason::NoBlock,
        overs: 0,
    };
    let report = report.unwrap_or(nothing);
    let (outcome, leak) = match report.outcome {
        Outcome::NotRun => (0, 0.0),
        Outcome::NoMove => (1, 0.0),
        Outcome::Rescue => (2, 0.0),
        Outcome::Move(leak) => (3, leak),
    };
    let verdict = halves([report.double_talk.into(), outcome]);
    line.compare("its owner", 8, &[verdict, bits(leak)]);
    let delivered = halves([0, report.delivered]);
    let last = [delivered, report.transfers, report.divergence_resets];
    line.compare("its owner", 41, &last);
    let because = because(report.reason.number(), report.overs);
    line.compare("its owner", 44, &[because]);
    let outcome = report.reason.outcome();
    assert_eq!(report.outcome, outcome, "line {}", line.number);
}

/// Field 44: the reason, and how many samples went over.
fn because(reason: u32, overs: u32) -> u64 {
    halves([reason as usize, overs as usize])
}

/// By the numbers that the library has for both.
fn outcome_of(reason: u32) -> u32 {
    match reason {
        reason::NO_BLOCK => outcome::NOT_RUN,
        reason::RESCUED => outcome::RESCUE,
        reason::MOVED => outcome::MOVE,
        _ => outcome::NO_MOVE,
    }
}

fn unreported(started: Started) -> Answer {
    Answer {
        transfers: 0,
        divergence_resets: 0,
        double_talk: false,
        ..started.into()
    }
}

/// The numbers of the state that are in no array, by fields 11 to 27.
fn set(state: &mut TauCanceller, line: &Line) {
    let has = |flag: usize| line.low(12) & flag != 0;
    state.partitions = line.high(11);
    state.carried = line.low(11);
    state.suppress = has(1);
    state.far.head = line.high(12);
    state.far.far_active = has(2);
    state.far.far_energy_peak = line.float(13);
    let mic = &mut state.mic;
    mic.detector = Detector {
        double_talk: has(4),
        dtd_collapsed: has(8),
        protect_output: has(16),
        dtd_blocks: line.high(14) as u32,
        dtd_baseline: line.float(15),
        dtd_deviation: line.float(16),
        coherence_smooth: line.float(17),
        step_scale: line.float(18),
    };
    mic.paths = Paths {
        shadow_error_power: line.float(19),
        output_error_power: line.float(20),
        quiet_streak: line.low(21) as u32,
        rescue_streak: line.low(14) as u32,
    };
    mic.guard = Guard {
        divergence_near_power: line.float(22),
        divergence_out_power: line.float(23),
    };
    mic.powers = Powers {
        near_power: line.float(24),
        residual_power: line.float(25),
    };
    mic.transfers = line.fields[26];
    mic.divergence_resets = line.fields[27];
}
