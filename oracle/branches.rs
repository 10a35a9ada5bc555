//! How often blocks took each branch, and whether every one was taken.

#![allow(dead_code)] // a driver uses a part

use crate::aspeyruni::tau::TauCanceller;
use crate::taken::{Inverse, Taken, INVERSES};
use crate::tau_calls::{Outcome, Reason, REASONS};
use crate::tau_reference::Seen;

/// All that a list has to reach, in the order of the block's steps.
const ALL: [&str; 66] = [
    "1 partition",
    "2 partitions",
    "4 partitions",
    "13 partitions",
    "32 partitions",
    "far silent, before any sound",
    "far silent, after sound",
    "far faint, not active",
    "far not active, not established",
    "far active, not established",
    "established",
    "count held at 64",
    "shadow diverged in step 2",
    "output diverged",
    "output diverged, far not active",
    "both diverged in steps 2 and 3",
    "c is 0",
    "c is between",
    "c is 1",
    "collapsed, established",
    "not collapsed, established",
    "protected",
    "not protected, established",
    "verdict kept, far not active",
    "muted, not established",
    "muted, established",
    "muted, far not active",
    "verdict kept, muted",
    "step scale 0.01",
    "step scale between",
    "step scale 1, established",
    "compared",
    "compared, the shadow having diverged",
    "compared, muted",
    "rescue streak broken",
    "rescue",
    "rescue, quiet streak below 6",
    "quiet streak below 6",
    "quiet streak below 6, no output power",
    "move, leak below 0.75",
    "move, leak 0.75",
    "quiet, without a move",
    "step factor 0.02",
    "shadow diverged in the update",
    "suppressor off",
    "suppressor on",
    "suppressor standing down",
    "gain rising",
    "gain falling",
    "target 0.1",
    "guard",
    "guard, the output moved",
    "guard, the output compared and not moved",
    "two resets",
    "flush, before any sound",
    "flush, with sound",
    "flush, after a divergence",
    "flush, diverging",
    "flush, the output diverging",
    "quiet streak held",
    "transfers held",
    "resets held",
    "powers false",
    "powers false, nothing learnt",
    "powers false no longer",
    "step factor above 1",
];

/// What went over in a block (request K8). All of it has to come from creation and from a foreign state.
const OVERS: [&str; 14] = [
    "over",
    "over in step 2 alone",
    "over in step 3 alone",
    "over in steps 2 and 3",
    "over in the update alone",
    "over in the suppressor alone",
    "over, the dropped half alone",
    "over, the used half alone",
    "over, both halves",
    "over, one sample",
    "over, suppression off",
    "over, flush",
    "over, nothing diverged",
    "diverged, nothing over",
];

/// What one block was, for its branches.
struct Ran<'a> {
    before: &'a TauCanceller,
    after: &'a TauCanceller,
    reason: Reason,
    taken: Taken,
    far: &'a [f32],
    flushes: bool,
    after_divergence: bool,
}

impl Ran<'_> {
    fn diverged(&self) -> bool {
        let t = self.taken;
        t.shadow_diverged || t.update_diverged || t.diverged
    }

    fn went_over(&self, kind: &str) -> bool {
        let t = self.taken;
        let (all, over_in) = (t.all_overs(), t.over_in());
        let dropped: u32 = INVERSES.iter().map(|i| t.dropped_in(*i)).sum();
        match kind {
            "over" => all > 0,
            "over in step 2 alone" => over_in == [Inverse::Shadow],
            "over in step 3 alone" => over_in == [Inverse::Output],
            "over in steps 2 and 3" => over_in == [Inverse::Shadow, Inverse::Output],
            "over in the update alone" => over_in == [Inverse::Gradient],
            "over in the suppressor alone" => over_in == [Inverse::Suppressed],
            "over, the dropped half alone" => all > 0 && dropped == all,
            "over, the used half alone" => all > 0 && dropped == 0,
            "over, both halves" => 0 < dropped && dropped < all,
            "over, one sample" => all == 1,
            "over, suppression off" => all > 0 && !self.after.suppress,
            "over, flush" => all > 0 && self.flushes,
            "over, nothing diverged" => all > 0 && !self.diverged(),
            "diverged, nothing over" => all == 0 && self.diverged(),
            _ => unreachable!(),
        }
    }

    fn took(&self, branch: &str) -> bool {
        let (t, before, after) = (self.taken, &self.before.mic, &self.after.mic);
        let (d, paths) = (after.detector, after.paths);
        let active = t.far_is_active;
        let established = active && d.dtd_blocks == 64;
        let silent = self.far.iter().all(|x| *x == 0.0);
        let sounded = self.after.far.far_active;
        let scale = d.step_scale;
        let partitions = self.after.partitions;
        match branch {
            "1 partition" => partitions == 1,
            "2 partitions" => partitions == 2,
            "4 partitions" => partitions == 4,
            "13 partitions" => partitions == 13,
            "32 partitions" => partitions == 32,
            "far silent, before any sound" => !sounded,
            "far silent, after sound" => silent && sounded,
            "far faint, not active" => !silent && !active,
            "far not active, not established" => !active && d.dtd_blocks < 64,
            "far active, not established" => active && !established,
            "established" => established,
            "count held at 64" => active && before.detector.dtd_blocks == 64,
            "shadow diverged in step 2" => t.shadow_diverged,
            "output diverged" => t.diverged,
            "output diverged, far not active" => t.diverged && !active,
            "both diverged in steps 2 and 3" => t.shadow_diverged && t.diverged,
            "c is 0" => t.likeness == Some(0.0),
            "c is between" => t.likeness.is_some_and(|c| 0.0 < c && c < 1.0),
            "c is 1" => t.likeness == Some(1.0),
            "collapsed, established" => established && d.dtd_collapsed,
            "not collapsed, established" => established && !d.dtd_collapsed,
            "protected" => established && d.protect_output,
            "not protected, established" => established && !d.protect_output,
            "verdict kept, far not active" => !active && d.dtd_collapsed,
            "muted, not established" => t.is_muted && active && !established,
            "muted, established" => t.is_muted && established,
            "muted, far not active" => t.is_muted && sounded && !active,
            "verdict kept, muted" => t.is_muted && active && d.dtd_collapsed,
            "step scale 0.01" => established && scale == 0.01,
            "step scale between" => established && 0.01 < scale && scale < 1.0,
            "step scale 1, established" => established && scale == 1.0,
            "compared" => t.compared,
            "compared, the shadow having diverged" => t.compared && t.shadow_diverged,
            "compared, muted" => t.compared && t.is_muted,
            "rescue streak broken" => {
                t.compared
                    && !t.rescued
                    && before.paths.rescue_streak > 0
                    && paths.rescue_streak == 0
            }
            "rescue" => t.rescued,
            "rescue, quiet streak below 6" => t.rescued && paths.quiet_streak < 6,
            "quiet streak below 6" => t.compared && (1..6).contains(&paths.quiet_streak),
            "quiet streak below 6, no output power" => {
                self.reason == Reason::QuietStreakShort && !(paths.output_error_power > 0.0)
            }
            "move, leak below 0.75" => t.leak.is_some_and(|leak| leak < 0.75),
            "move, leak 0.75" => t.leak == Some(0.75),
            "quiet, without a move" => {
                t.compared && paths.quiet_streak >= 6 && self.reason.outcome() == Outcome::NoMove
            }
            "step factor 0.02" => t.least_step,
            "shadow diverged in the update" => t.update_diverged,
            "suppressor off" => sounded && !self.after.suppress,
            "suppressor on" => t.suppressed && !d.protect_output,
            "suppressor standing down" => t.suppressed && d.protect_output,
            "gain rising" => t.rising,
            "gain falling" => t.falling,
            "target 0.1" => t.least_gain,
            "guard" => t.guarded,
            "guard, the output moved" => t.guarded && t.leak.is_some(),
            "guard, the output compared and not moved" => {
                t.guarded && t.compared && t.leak.is_none()
            }
            "two resets" => {
                [t.shadow_diverged, t.update_diverged, t.diverged, t.guarded]
                    .map(u32::from)
                    .iter()
                    .sum::<u32>()
                    == 2
            }
            "flush, before any sound" => self.flushes && !sounded,
            "flush, with sound" => self.flushes && active,
            "flush, after a divergence" => self.flushes && self.after_divergence,
            "flush, diverging" => self.flushes && self.diverged(),
            "flush, the output diverging" => self.flushes && t.diverged,
            "quiet streak held" => {
                t.compared
                    && before.paths.quiet_streak == u32::MAX
                    && paths.quiet_streak == u32::MAX
            }
            "transfers held" => t.leak.is_some() && before.transfers == u64::MAX,
            "resets held" => (self.diverged() || t.guarded) && before.divergence_resets == u64::MAX,
            "powers false" => t.had_false_powers,
            "powers false, nothing learnt" => {
                let updates = !self.flushes && !t.diverged && !t.shadow_diverged && !t.rescued;
                t.had_false_powers && !updates
            }
            "powers false no longer" => t.had_false_powers && !t.has_false_powers,
            "step factor above 1" => t.most_step > 1.0,
            _ => unreachable!(),
        }
    }
}

struct Branches {
    /// From creation, and where a line before set a part of the state.
    counts: [[u32; 2]; ALL.len()],
    /// The same of the reasons, by their numbers. No block has the first.
    reasons: [[u32; 2]; REASONS.len()],
    overs: [[u32; 2]; OVERS.len()],
}

impl Branches {
    fn none() -> Branches {
        Branches {
            counts: [[0; 2]; ALL.len()],
            reasons: [[0; 2]; REASONS.len()],
            overs: [[0; 2]; OVERS.len()],
        }
    }

    fn add(&mut self, ran: &Ran, is_foreign: bool) {
        for (branch, count) in ALL.iter().zip(&mut self.counts) {
            count[usize::from(is_foreign)] += u32::from(ran.took(branch));
        }
        for (kind, count) in OVERS.iter().zip(&mut self.overs) {
            count[usize::from(is_foreign)] += u32::from(ran.went_over(kind));
        }
        self.reasons[ran.reason.number() as usize][usize::from(is_foreign)] += 1;
    }

    /// To standard error.
    fn tell(&self) {
        eprintln!("{:40} {:>9} {:>9}", "blocks", "own state", "foreign");
        for (branch, [own, foreign]) in ALL.iter().zip(self.counts) {
            eprintln!("{branch:40} {own:>9} {foreign:>9}");
        }
        for (number, [own, foreign]) in self.reasons.iter().enumerate().skip(1) {
            let name = format!("reason {number}, {}", REASONS[number]);
            eprintln!("{name:40} {own:>9} {foreign:>9}");
        }
        for (kind, [own, foreign]) in OVERS.iter().zip(self.overs) {
            eprintln!("{kind:40} {own:>9} {foreign:>9}");
        }
    }

    /// A reason, and what went over, has to come from creation and from a foreign state, since every one can.
    fn not_taken(&self) -> Vec<&'static str> {
        let all = ALL.iter().zip(self.counts);
        let branches = all.filter(|(_, count)| *count == [0, 0]);
        let reasons = REASONS.iter().zip(self.reasons).skip(1);
        let from_both = reasons.chain(OVERS.iter().zip(self.overs));
        branches
            .chain(from_both.filter(|(_, count)| count.contains(&0)))
            .map(|(name, _)| *name)
            .collect()
    }
}

/// The branches of all blocks, and how many blocks there are of each number of partitions.
pub struct Counts {
    branches: Branches,
    blocks: [u32; 33],
    /// Whether something since the last creation set a part of the state, and whether the last block diverged.
    pub is_foreign: bool,
    pub has_diverged: bool,
}

impl Counts {
    pub fn none() -> Counts {
        Counts {
            branches: Branches::none(),
            blocks: [0; 33],
            is_foreign: false,
            has_diverged: false,
        }
    }

    pub fn see(&mut self, seen: Seen) {
        let ran = Ran {
            before: seen.before,
            after: &seen.blocked.state,
            reason: seen.blocked.told.reason,
            taken: seen.taken,
            far: seen.far,
            flushes: seen.flushes,
            after_divergence: self.has_diverged,
        };
        // request K10: where calls made the state no power is false, and where none is no step factor is above 1
        let t = &seen.taken;
        assert!(self.is_foreign || !t.had_false_powers && !t.has_false_powers);
        assert!(t.had_false_powers || !t.has_false_powers && t.most_step <= 1.0);
        self.branches.add(&ran, self.is_foreign);
        self.blocks[seen.before.partitions] += 1;
        self.has_diverged = ran.diverged();
    }

    pub fn blocks(&self) -> u32 {
        self.blocks.iter().sum()
    }

    /// To standard error.
    pub fn tell(&self) {
        self.branches.tell();
        for branch in self.branches.not_taken() {
            eprintln!("no block takes the branch: {branch}");
        }
        for (partitions, blocks) in self.blocks.iter().enumerate() {
            if *blocks > 0 {
                eprintln!("{blocks} blocks of P = {partitions}");
            }
        }
    }

    /// And an end with status 1 where a branch has no block.
    pub fn tell_all_taken(&self) {
        self.tell();
        if !self.branches.not_taken().is_empty() {
            std::process::exit(1);
        }
    }

    /// How many branches have no block.
    pub fn missing(&self) -> usize {
        self.branches.not_taken().len()
    }
}
