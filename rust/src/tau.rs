//! The owner of the block engine's state and buffers.

use crate::raw::tau::{self, reason, Answer, Lent, TauCanceller, LENT};
use crate::refusal::{accepted, Refusal};
use std::fmt;

/// The block engine. It delivers 256 samples whenever 256 pairs are together, and models echo of up to 256 samples for each partition.
///
/// It owns its state and its four buffers, so of refusals 1 to 6 `process` gives 3, 4 and 5, `flush` gives 5 and `reset` none. What it
/// can cancel, and what stack a call takes, stands at [`raw`](crate::raw) and [`raw::tau`](crate::raw::tau).
#[derive(Clone)]
pub struct Tau {
    /// The last call's answer, with the state in it. It stays where it is: a state has some 14 KB, which `process_on` copies into the call
    /// and nowhere else.
    answer: Box<Answer>,
    /// The shadow weights, the output weights, the far spectra and their powers.
    buffers: [Vec<f64>; 4],
}

/// What a call of [`Tau`] delivered, and how the engine then stands.
#[must_use = "it says how many samples were delivered"]
#[derive(Clone, Copy, Debug, PartialEq)]
pub struct Report {
    /// So many samples are new, at the first places of the output buffer.
    pub delivered: usize,
    /// How often, since creation, the output filter moved towards the shadow.
    pub transfers: u64,
    /// How often, since creation, a filter diverged and was cleared, or was halved because it made the microphone's sound louder.
    pub divergence_resets: u64,
    /// Whether the detector takes it that the microphone hears more than the loudspeaker's echo.
    pub double_talk: bool,
    /// What the last block of the call came to.
    pub outcome: Outcome,
    /// Why the output filter did not move in that block, or that it moved.
    pub reason: Reason,
    /// For a box that clips: how many samples of that block went over, which is to say that they were finite numbers and became infinite as
    /// f32s. Where no block ran it is 0. Which samples count stands at [`Answer::overs`].
    pub overs: u32,
}

/// What a block did with the two filters: the shadow, which learns, and the output filter, which it delivers through.
#[derive(Clone, Copy, Debug, PartialEq)]
pub enum Outcome {
    /// The call ran no block.
    NotRun,
    /// Nothing moved.
    NoMove,
    /// The shadow filter, which had become worse, became a copy of the output filter.
    Rescue,
    /// The output filter moved towards the shadow by this share, the leak: above 0, at most 0.75.
    Move(f64),
}

impl Outcome {
    /// By the library's number for it, and the leak.
    fn of(number: u32, leak: f64) -> Outcome {
        match number {
            0 => Outcome::NotRun,
            1 => Outcome::NoMove,
            2 => Outcome::Rescue,
            3 => Outcome::Move(leak),
            _ => unreachable!("the library has no outcome {number}"),
        }
    }
}

/// Why the output filter did not move in the call's last block: the first of these that holds, in this order. Where none does, it moved.
///
/// It prints itself in words. It is of the block's own test, on powers and a streak that the rest of the block may change, so it cannot be
/// worked out from [`Tau::state`]. What to expect of each, and what to look at where it stays, is at
/// [`raw::tau::reason`](crate::raw::tau::reason).
#[derive(Clone, Copy, Debug, PartialEq)]
pub enum Reason {
    /// The call ran no block.
    NoBlock,
    /// The block is what a flush found waiting, from which no filter learns.
    FlushBlock,
    /// The output filter gave a sample that is not finite, and both filters were cleared.
    OutputDiverged,
    /// The loudspeaker is silent: far has at most 1e-4 of the energy of its loudest block since creation or reset.
    FarNotActive,
    /// The detector of double talk has learnt from fewer than 64 blocks: from those with far sound in which near is not all zeros.
    NotEstablished,
    /// The shadow filter, which had become worse, became a copy of the output filter.
    Rescued,
    /// Fewer than 6 blocks in a row were without double talk.
    QuietStreakShort,
    /// The output filter's smoothed error power is 0, or no number.
    NoOutputPower,
    /// The shadow's smoothed error power is not at least a tenth below the output filter's.
    NoAdvantage,
    /// The output filter moved towards the shadow by this share, the leak: above 0, at most 0.75.
    Moved(f64),
}

impl Reason {
    /// By the library's number for it, and the leak.
    fn of(number: u32, leak: f64) -> Reason {
        match number {
            reason::NO_BLOCK => Reason::NoBlock,
            reason::FLUSH_BLOCK => Reason::FlushBlock,
            reason::OUTPUT_DIVERGED => Reason::OutputDiverged,
            reason::FAR_NOT_ACTIVE => Reason::FarNotActive,
            reason::NOT_ESTABLISHED => Reason::NotEstablished,
            reason::RESCUED => Reason::Rescued,
            reason::QUIET_STREAK_SHORT => Reason::QuietStreakShort,
            reason::NO_OUTPUT_POWER => Reason::NoOutputPower,
            reason::NO_ADVANTAGE => Reason::NoAdvantage,
            reason::MOVED => Reason::Moved(leak),
            _ => unreachable!("the library has no reason {number}"),
        }
    }

    /// The library's number for it, as [`raw`](crate::raw) answers it: its place in the order, from 0 to 9.
    #[must_use]
    pub const fn number(self) -> u32 {
        match self {
            Reason::NoBlock => reason::NO_BLOCK,
            Reason::FlushBlock => reason::FLUSH_BLOCK,
            Reason::OutputDiverged => reason::OUTPUT_DIVERGED,
            Reason::FarNotActive => reason::FAR_NOT_ACTIVE,
            Reason::NotEstablished => reason::NOT_ESTABLISHED,
            Reason::Rescued => reason::RESCUED,
            Reason::QuietStreakShort => reason::QUIET_STREAK_SHORT,
            Reason::NoOutputPower => reason::NO_OUTPUT_POWER,
            Reason::NoAdvantage => reason::NO_ADVANTAGE,
            Reason::Moved(_) => reason::MOVED,
        }
    }

    /// What a block with this reason did. A report has no other outcome beside it.
    #[must_use]
    pub const fn outcome(self) -> Outcome {
        match self {
            Reason::NoBlock => Outcome::NotRun,
            Reason::Rescued => Outcome::Rescue,
            Reason::Moved(leak) => Outcome::Move(leak),
            _ => Outcome::NoMove,
        }
    }
}

/// In words, as "quiet streak below 6"; of a move with its leak, as "moved, leak 0.75".
impl fmt::Display for Reason {
    fn fmt(&self, f: &mut fmt::Formatter<'_>) -> fmt::Result {
        f.write_str(reason::words(self.number()))?;
        match self {
            Reason::Moved(leak) => write!(f, ", leak {leak}"),
            _ => Ok(()),
        }
    }
}

impl Tau {
    /// An engine that has heard nothing, with 1 to 32 partitions, else it is refused with [`Refusal::Setting`]. With `suppress` what the
    /// filter leaves of the echo is made quieter.
    pub fn new(partitions: usize, suppress: bool) -> Result<Tau, Refusal> {
        // With nothing lent the library answers 1 where it refuses the setting, else 2. So it judges the setting, before there is a
        // buffer of that size.
        let asked = tau::create(partitions, suppress, [&mut [], &mut [], &mut [], &mut []]);
        if asked.refusal == Refusal::Setting.number() {
            return Err(Refusal::Setting);
        }
        let mut buffers = LENT.map(|numbers| vec![0.0; numbers * partitions]);
        let started = tau::create(partitions, suppress, lend(&mut buffers));
        accepted(started.refusal)?;
        Ok(Tau {
            answer: Box::new(started.into()),
            buffers,
        })
    }

    /// An engine that goes on from a stored state and its buffers, as [`state`](Tau::state) and [`buffers`](Tau::buffers) gave them.
    /// It is refused with [`Refusal::State`] where a number of the state is outside its range, and with [`Refusal::Buffer`] where
    /// a buffer has not 514 numbers for each partition, or the last one not 257. Once it is accepted, it is as good as a new one: no later
    /// call is refused for its state or its buffers.
    ///
    /// Any float is accepted, and other buffers of these lengths are taken for the state's own. So are powers that are not those of the
    /// spectra; what comes of them, and how to work out true ones, stands at [`Lent`].
    pub fn from_parts(state: &TauCanceller, buffers: [Vec<f64>; 4]) -> Result<Tau, Refusal> {
        let mut buffers = buffers;
        // A process of no pairs is refused as any other, and else changes nothing.
        let answer = tau::process(*state, lend(&mut buffers), &[], &[], &mut []);
        accepted(answer.refusal)?;
        Ok(Tau {
            answer: Box::new(answer),
            buffers,
        })
    }

    /// Takes pairs, `near[i]` with `far[i]`, and delivers 256 samples for each block that they fill, to the first places of `out`; the
    /// others stay as they were. A sample that is not a finite number is read as 0.0.
    ///
    /// It is refused with [`Refusal::Lengths`], [`Refusal::Pairs`] or [`Refusal::Room`]; where `out` has [`Tau::room`], not with the last.
    pub fn process(
        &mut self,
        near: &[f32],
        far: &[f32],
        out: &mut [f32],
    ) -> Result<Report, Refusal> {
        tau::process_on(&mut self.answer, lend(&mut self.buffers), near, far, out);
        self.answered()
    }

    /// Delivers what waits, [`carried`](Tau::carried) samples, at most 255. The filters do not learn from them. With less room it is
    /// refused with [`Refusal::Room`].
    pub fn flush(&mut self, out: &mut [f32]) -> Result<Report, Refusal> {
        *self.answer = tau::flush(self.answer.state, lend(&mut self.buffers), out);
        self.answered()
    }

    /// Forgets all but the settings and the two counters of the report. What waits is dropped.
    pub fn reset(&mut self) {
        // Refused would be a state out of its ranges, or a buffer of another length. The buffers keep theirs, and a state in range is so
        // after any calls: `pairs-intact` and `flushed-intact` (crates/tau_streams proofs/Counts), over `ranges-kept` for a block
        // (crates/tau_block_laws proofs/Kept). `tau-calls` (crates/promises proofs/Demand3) has, of any calls since a creation, that a
        // reset is then accepted.
        let started = tau::reset(self.answer.state, lend(&mut self.buffers));
        debug_assert_eq!(started.refusal, 0);
        *self.answer = started.into();
    }

    /// So much room in the output buffer always suffices for a call of so many pairs, whatever waits: 255 more than `pairs`. A flush is a
    /// call of none.
    #[must_use]
    pub const fn room(pairs: usize) -> usize {
        tau::room(pairs)
    }

    /// How many partitions it has.
    #[must_use]
    pub fn partitions(&self) -> usize {
        self.state().partitions
    }

    /// Whether it suppresses what the filter leaves of the echo.
    #[must_use]
    pub fn suppress(&self) -> bool {
        self.state().suppress
    }

    /// How many pairs wait for their block to be full, 0 to 255.
    #[must_use]
    pub fn carried(&self) -> usize {
        self.state().carried
    }

    /// The whole state, to be looked at, or stored with all of the buffers.
    #[must_use]
    pub fn state(&self) -> &TauCanceller {
        &self.answer.state
    }

    /// The shadow weights, the output weights and the far spectra, each of 514 numbers for each partition, and the powers of these spectra,
    /// of 257, to be looked at, or stored with the state.
    #[must_use]
    pub fn buffers(&self) -> [&[f64]; 4] {
        self.buffers.each_ref().map(Vec::as_slice)
    }

    /// Of the last call.
    fn answered(&self) -> Result<Report, Refusal> {
        let answer = &*self.answer;
        accepted(answer.refusal)?;
        Ok(Report {
            delivered: answer.delivered,
            transfers: answer.transfers,
            divergence_resets: answer.divergence_resets,
            double_talk: answer.double_talk,
            outcome: Outcome::of(answer.outcome, answer.leak),
            reason: Reason::of(answer.reason, answer.leak),
            overs: answer.overs,
        })
    }
}

fn lend(buffers: &mut [Vec<f64>; 4]) -> Lent<'_> {
    buffers.each_mut().map(Vec::as_mut_slice)
}

/// Without the thousands of numbers that it has learnt.
impl fmt::Debug for Tau {
    fn fmt(&self, f: &mut fmt::Formatter<'_>) -> fmt::Result {
        let mic = &self.state().mic;
        f.debug_struct("Tau")
            .field("partitions", &self.partitions())
            .field("suppress", &self.suppress())
            .field("carried", &self.carried())
            .field("transfers", &mic.transfers)
            .field("divergence_resets", &mic.divergence_resets)
            .field("double_talk", &mic.detector.double_talk)
            .finish_non_exhaustive()
    }
}
