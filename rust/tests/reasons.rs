//! Why the output filter did not move: every reason where it is to be expected, in the order that they have, and its number and words.

use aspeyruni::raw::tau::{self, Paths, TauCanceller};
use aspeyruni::{Outcome, Reason, Refusal, Report, Tau};

const BLOCK: usize = tau::BLOCK;
const SILENCE: [f32; BLOCK] = [0.0; BLOCK];

/// An engine, and the noise that its loudspeaker plays.
#[derive(Clone)]
struct Room {
    tau: Tau,
    word: u32,
}

impl Room {
    fn new() -> Room {
        Room {
            tau: Tau::new(1, false).unwrap(),
            word: 1,
        }
    }

    /// One whose filters have learnt the echo.
    fn learnt() -> Room {
        let mut room = Room::new();
        for _ in 0..80 {
            let _ = room.hear();
        }
        room
    }

    /// Goes on from this state, with its buffers as they are.
    fn take(&mut self, state: &TauCanceller) {
        let buffers = self.tau.buffers().map(<[f64]>::to_vec);
        self.tau = Tau::from_parts(state, buffers).unwrap();
    }

    fn noise(&mut self) -> [f32; BLOCK] {
        [0; BLOCK].map(|_| {
            self.word = self.word.wrapping_mul(1_664_525);
            self.word = self.word.wrapping_add(1_013_904_223);
            (self.word >> 8) as f32 / (1 << 24) as f32 - 0.5
        })
    }

    /// A block of noise, of which half comes back.
    fn hear(&mut self) -> Report {
        let far = self.noise();
        let near = far.map(|x| 0.5 * x);
        self.process(&near, &far)
    }

    fn process(&mut self, near: &[f32], far: &[f32]) -> Report {
        let mut out = vec![0.0; Tau::room(near.len())];
        self.tau.process(near, far, &mut out).unwrap()
    }
}

/// The first block that can move the output filter is the 69th with far sound.
#[test]
fn from_creation_to_the_first_move() {
    let mut room = Room::new();
    assert_eq!(room.process(&[], &[]).reason, Reason::NoBlock);
    let silent = room.process(&SILENCE, &SILENCE);
    assert_eq!(silent.reason, Reason::FarNotActive);
    for block in 1..69 {
        let expected = match block {
            ..64 => Reason::NotEstablished,
            _ => Reason::QuietStreakShort,
        };
        assert_eq!(room.hear().reason, expected, "block {block}");
    }
    let report = room.hear();
    let Reason::Moved(leak) = report.reason else {
        panic!("block 69: {}", report.reason);
    };
    assert!(leak > 0.0 && leak <= 0.75, "{leak}");
    assert_eq!(report.outcome, Outcome::Move(leak));
    assert_eq!(report.transfers, 1);
}

/// A muted microphone is no evidence: its blocks do not count towards the 64.
#[test]
fn a_muted_microphone_keeps_the_detector_waiting() {
    let mut room = Room::new();
    for _ in 0..70 {
        let far = room.noise();
        let muted = room.process(&SILENCE, &far);
        assert_eq!(muted.reason, Reason::NotEstablished);
    }
}

#[test]
fn a_call_without_a_block_says_so() {
    let mut room = Room::learnt();
    let far = room.noise();
    assert_eq!(room.process(&[], &[]).reason, Reason::NoBlock);
    assert_eq!(
        room.process(&far[..100], &far[..100]).reason,
        Reason::NoBlock
    );
    let mut out = [0.0; 100];
    let part = room.tau.flush(&mut out).unwrap();
    assert_eq!((part.delivered, part.reason), (100, Reason::FlushBlock));
    let empty = room.tau.flush(&mut out).unwrap();
    assert_eq!((empty.delivered, empty.reason), (0, Reason::NoBlock));
}

/// Its raw answer has the reason of a call that ran no block: the last one before is not told again.
#[test]
fn a_refused_call_has_no_reason_but_its_refusal() {
    let mut room = Room::learnt();
    let refused = room.tau.process(&[0.0], &[], &mut []);
    assert_eq!(refused, Err(Refusal::Lengths));
    let mut buffers = room.tau.buffers().map(<[f64]>::to_vec);
    let lent = buffers.each_mut().map(Vec::as_mut_slice);
    let answer = tau::process(*room.tau.state(), lent, &[0.0], &[], &mut []);
    assert_eq!(answer.refusal, Refusal::Lengths.number());
    assert_eq!(answer.reason, tau::reason::NO_BLOCK);
}

/// It is the far end of that block, though the engine has heard sound before.
#[test]
fn of_several_blocks_the_last_one_is_told() {
    let mut room = Room::learnt();
    let far = [room.noise(), SILENCE].concat();
    let near: Vec<f32> = far.iter().map(|x| 0.5 * x).collect();
    let report = room.process(&near, &far);
    assert_eq!(report.delivered, 512);
    assert_eq!(report.reason, Reason::FarNotActive);
}

/// Error powers of shadow and output, quiet streak and rescue streak before a block, and what it tells. What is no number is neither
/// above 0 nor at least 0.1.
const TOLD: [(f64, f64, u32, u32, Reason); 10] = [
    (1e9, 1.0, 0, 7, Reason::Rescued),
    (1e9, 1.0, 9, 7, Reason::Rescued),
    (1e9, 1.0, 9, 6, Reason::NoAdvantage),
    (1.0, 1.0, 4, 0, Reason::QuietStreakShort),
    (1.0, f64::NAN, 4, 0, Reason::QuietStreakShort),
    (1.0, f64::NAN, 9, 0, Reason::NoOutputPower),
    (1.0, -1e9, 9, 0, Reason::NoOutputPower),
    (1.0, 1.0, 5, 0, Reason::NoAdvantage),
    (f64::INFINITY, f64::INFINITY, 9, 0, Reason::NoAdvantage),
    (0.0, 1e9, 5, 0, Reason::Moved(0.75)),
];

#[test]
fn the_first_that_holds_is_told() {
    let learnt = Room::learnt();
    for (shadow, output, quiet_streak, rescue_streak, expected) in TOLD {
        let mut state = *learnt.tau.state();
        state.mic.paths = Paths {
            shadow_error_power: shadow,
            output_error_power: output,
            quiet_streak,
            rescue_streak,
        };
        let mut room = learnt.clone();
        room.take(&state);
        let report = room.hear();
        assert_eq!(report.reason, expected, "{:?}", state.mic.paths);
        assert_eq!(report.outcome, expected.outcome());
    }
}

/// With a weight that is not finite. Of the flush of such an engine that it is one is told, and of silence that the output diverged.
#[test]
fn an_output_that_diverges_is_told() {
    let mut room = Room::learnt();
    let mut buffers = room.tau.buffers().map(<[f64]>::to_vec);
    buffers[1][0] = f64::INFINITY;
    room.tau = Tau::from_parts(room.tau.state(), buffers).unwrap();
    let mut flushed = room.clone();
    assert_eq!(
        room.process(&SILENCE, &SILENCE).reason,
        Reason::OutputDiverged
    );
    let _ = flushed.process(&SILENCE[..9], &SILENCE[..9]);
    assert_eq!(
        flushed.tau.flush(&mut [0.0; 9]).unwrap().reason,
        Reason::FlushBlock
    );
}

/// The guard makes the output's error power what near has, after the test: by the state that is left, the shadow has an advantage.
#[test]
fn the_state_that_is_left_does_not_tell_it() {
    let mut room = Room::learnt();
    let mut state = *room.tau.state();
    state.mic.paths.shadow_error_power = 0.1;
    state.mic.paths.output_error_power = 0.1;
    state.mic.guard.divergence_out_power = 65_536.0;
    room.take(&state);
    assert_eq!(room.hear().reason, Reason::NoAdvantage);
    let left = room.tau.state().mic.paths;
    assert!(left.shadow_error_power < 0.1 * left.output_error_power);
}

#[test]
fn a_reason_has_its_number_its_words_and_its_outcome() {
    let all = [
        (Reason::NoBlock, "no block run", Outcome::NotRun),
        (Reason::FlushBlock, "flush block", Outcome::NoMove),
        (Reason::OutputDiverged, "output diverged", Outcome::NoMove),
        (Reason::FarNotActive, "far not active", Outcome::NoMove),
        (
            Reason::NotEstablished,
            "detector not established",
            Outcome::NoMove,
        ),
        (Reason::Rescued, "rescued", Outcome::Rescue),
        (
            Reason::QuietStreakShort,
            "quiet streak below 6",
            Outcome::NoMove,
        ),
        (
            Reason::NoOutputPower,
            "output power not above 0",
            Outcome::NoMove,
        ),
        (
            Reason::NoAdvantage,
            "advantage not at least 0.1",
            Outcome::NoMove,
        ),
        (Reason::Moved(0.75), "moved, leak 0.75", Outcome::Move(0.75)),
    ];
    for (number, (reason, words, outcome)) in (0..).zip(all) {
        assert_eq!(reason.number(), number);
        assert_eq!(reason.to_string(), words);
        assert_eq!(reason.outcome(), outcome);
    }
}
