//! What a block of Tau comes to, for the port and for the Rust, and what comparing its calls takes besides.

#![allow(dead_code)] // a driver uses a part

use crate::aspeyruni::tau::{reason, Answer, Started, TauCanceller, BLOCK};
use crate::taken::{Taken, Test};

#[derive(Clone, Copy, Debug, PartialEq)]
pub enum Outcome {
    NotRun,
    NoMove,
    Rescue,
    Move(f64),
}

/// Why the output filter stood still: the first of these that holds, and the move with its leak where none does (request K2).
#[derive(Clone, Copy, Debug, PartialEq)]
pub enum Reason {
    NoBlock,
    FlushBlock,
    OutputDiverged,
    FarNotActive,
    NotEstablished,
    Rescued,
    QuietStreakShort,
    NoOutputPower,
    NoAdvantage,
    Moved(f64),
}

/// In words, by their numbers.
pub const REASONS: [&str; reason::MOVED as usize + 1] = {
    let mut words = [""; reason::MOVED as usize + 1];
    let mut number = 0;
    while number < words.len() {
        words[number] = reason::words(number as u32);
        number += 1;
    }
    words
};

/// What a report has of the last block alone: the reason, and how many samples of its inverse transforms went over (request K8).
#[derive(Clone, Copy, Debug, PartialEq)]
pub struct Told {
    pub reason: Reason,
    pub overs: u32,
}

#[derive(Clone, Copy, Debug)]
pub struct Blocked {
    pub state: TauCanceller,
    pub block: [f32; BLOCK],
    pub told: Told,
}

impl Told {
    /// Where no block ran.
    pub const NOTHING: Told = Told {
        reason: Reason::NoBlock,
        overs: 0,
    };

    pub fn of(taken: &Taken) -> Told {
        Told {
            reason: Reason::of(taken),
            overs: taken.all_overs(),
        }
    }
}

impl Reason {
    /// From the branch that the Rust's block took, not from what it left. Where it took none there was no block.
    pub fn of(taken: &Taken) -> Reason {
        match (taken.failed, taken.rescued, taken.leak) {
            (None, false, None) => Reason::NoBlock,
            (Some(test), false, None) => Reason::failing(test),
            (None, true, None) => Reason::Rescued,
            (None, false, Some(leak)) => Reason::Moved(leak),
            branches => panic!("a block of the Rust took several branches: {branches:?}"),
        }
    }

    fn failing(test: Test) -> Reason {
        match test {
            Test::Adapts => Reason::FlushBlock,
            Test::OutputHolds => Reason::OutputDiverged,
            Test::FarIsActive => Reason::FarNotActive,
            Test::IsEstablished => Reason::NotEstablished,
            Test::IsQuietForLong => Reason::QuietStreakShort,
            Test::HasOutputPower => Reason::NoOutputPower,
            Test::HasAdvantage => Reason::NoAdvantage,
        }
    }

    pub fn number(self) -> u32 {
        match self {
            Reason::NoBlock => reason::NO_BLOCK,
            Reason::FlushBlock => reason::FLUSH_BLOCK,
            Reason::OutputDiverged => reason::OUTPUT_DIVERGED,
            Reason::FarNotActive => reason::FAR_NOT_ACTIVE,
            Reason::NotEstablished => reason::NOT_ESTABLISHED,
            Reason::Rescued => reason::RESCUED,
            Reason::QuietStreakShort => reason::QUIET_STREAK_SHORT,
            Reason::NoOutputPower => reason::NO_OUTPUT_POWER,
            Reason::NoAdvantage => reason::NO_ADVANTAGE,
            Reason::Moved(_) => reason::MOVED,
        }
    }

    pub fn outcome(self) -> Outcome {
        match self {
            Reason::NoBlock => Outcome::NotRun,
            Reason::Rescued => Outcome::Rescue,
            Reason::Moved(leak) => Outcome::Move(leak),
            _ => Outcome::NoMove,
        }
    }
}

/// By the numbers that the host library has for them.
impl Outcome {
    pub fn number(self) -> u32 {
        match self {
            Outcome::NotRun => 0,
            Outcome::NoMove => 1,
            Outcome::Rescue => 2,
            Outcome::Move(_) => 3,
        }
    }

    pub fn leak(self) -> f64 {
        match self {
            Outcome::Move(leak) => leak,
            _ => 0.0,
        }
    }
}

impl Started {
    /// With nothing delivered and nothing reported.
    pub fn whole(self) -> Answer {
        Answer {
            refusal: self.refusal,
            delivered: 0,
            state: self.state,
            transfers: 0,
            divergence_resets: 0,
            double_talk: false,
            outcome: 0,
            reason: 0,
            overs: 0,
            leak: 0.0,
        }
    }
}

impl TauCanceller {
    /// Of a refused creation: all zero.
    pub fn zero() -> TauCanceller {
        unsafe { std::mem::zeroed() } // all of it numbers and flags
    }
}
