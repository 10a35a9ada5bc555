//! The echo canceller whose samples are proved: what a Rust host calls, as include/aspeyruni.h is for C. A host has it as a module,
//! `#[path = "../include/aspeyruni.rs"] mod aspeyruni;`, and links libaspeyruni, which `make` builds. The functions are those of
//! crates/capi, and docs/PROMISES.md says what each promises. It takes Rust 1.82 or later, in any edition from 2021 on.
//!
//! A buffer is a slice, which the library is passed as a pointer and a length. A state is passed by value, and comes back in the answer;
//! any state may be passed, and a bad one is refused. For an answer that is a struct the library is given the place, before all else:
//! x86-64 passes an answer of this size so, and the library, which is written for x86-64, does it on every processor (bin/library). The
//! two exceptions are `Inverted` and `RecordWritten`: their 16 bytes come back by value, in two registers, as C does on x86-64 and on Arm.
//! Two states are the same where their fields are: the bytes between fields hold anything, and may not be compared.
//!
//! What a caller has to see to, since neither the compiler nor a refusal tells of it:
//! - A state goes only with its own lent buffers, all of them, as its last call left them. Others of the right length are taken for them,
//!   and a state is `Copy`: an older copy is accepted with newer buffers.
//! - Stack. For Tau a thread needs 96 KB to spare, and 176 KB in a build that is not optimised (92,984 and 165,992 bytes were measured on
//!   x86-64, and with `process_on` 78,392 and 93,240); for the other calls it needs 16 KB.
//!
//! An engine is its state and its lent buffers, and the library has no other memory: calls of different engines may run at once.
//!
//! Samples: `near` is what the microphone hears, `far` what the loudspeaker plays at the same time; the same places of both are a pair. A
//! sample that is not finite is read as 0.0. Full scale is 1.0: in both engines a far end of an RMS below about 0.001 is learnt more
//! slowly, and one below about 0.0001 hardly at all, since one constant is absolute. A larger scale is cancelled as well, 16-bit integers
//! as floats too.

#![allow(dead_code)] // a host uses a part

/// This file and the library have to be of one version, and nothing checks it: before 1.0.0 a new minor version may change a struct's
/// layout or a call's arguments.
pub const VERSION: &str = "0.4.0";
pub const VERSION_MAJOR: u32 = 0;
pub const VERSION_MINOR: u32 = 4;
pub const VERSION_PATCH: u32 = 0;

/// The most pairs of one call, of either engine.
pub const MAX_PAIRS: usize = 4096;

/// What three of the transforms answer, and the field `refusal` of every other answer. A refused call delivers nothing, gives back the
/// state as it was (a refused create: all zero), and writes nothing else. 1 to 6 are the engines', 7 to 9 those of records, whose writer
/// gives 5 too.
pub mod refusal {
    pub const ACCEPTED: u32 = 0;
    /// Create: a setting outside its range.
    pub const SETTING: u32 = 1;
    /// A lent buffer that has not exactly the needed length.
    pub const BUFFER: u32 = 2;
    /// Near and far of different lengths.
    pub const LENGTHS: u32 = 3;
    /// More than `MAX_PAIRS` in one call.
    pub const PAIRS: u32 = 4;
    /// An output buffer shorter than this call would deliver.
    pub const ROOM: u32 = 5;
    /// A state with a number outside its range.
    pub const STATE: u32 = 6;
    /// Bytes that do not begin with a record's mark.
    pub const MARK: u32 = 7;
    /// An unknown kind, a payload that is too long or has not the kind's length, or a fourth byte that is not zero.
    pub const HEADER: u32 = 8;
    /// Fewer bytes than a header has, or than the header says.
    pub const SHORT: u32 = 9;
}

/// What the library answers, in the place that it is given for it before all else. After that come the settings or the state, and then
/// the buffers: those that are lent to it, those that it reads, and the one that it writes samples to.
macro_rules! answer {
    (
        $call:ident($($given:ident),*)
        $(lent($($lent:ident),*))?
        $(read($($read:ident),*))?
        $(written($($written:ident),*))?
    ) => {{
        let mut place = std::mem::MaybeUninit::uninit();
        unsafe {
            $call(
                place.as_mut_ptr(),
                $($given,)*
                $($($lent.as_mut_ptr(), $lent.len(),)*)?
                $($($read.as_ptr(), $read.len(),)*)?
                $($($written.as_mut_ptr(), $written.len(),)*)?
            );
            place.assume_init() // every call writes all of it
        }
    }};
}

// ---- numbers and the transform

unsafe extern "C" {
    fn aspeyruni_narrow(x: f64) -> f32;
    fn aspeyruni_narrow_bits(x: f64) -> u32;
    fn aspeyruni_narrow_kind(x: f64) -> u32;
    fn aspeyruni_narrow_list(xs: *const f64, xs_len: usize, out: *mut f32, out_len: usize)
        -> usize;
    fn aspeyruni_forward(from: *const f32, from_len: usize, to: *mut f64, to_len: usize) -> u32;
    fn aspeyruni_inverse(
        from: *const f64,
        from_len: usize,
        to: *mut f32,
        to_len: usize,
    ) -> Inverted;
    fn aspeyruni_complex_forward(points: *mut f64, points_len: usize) -> u32;
    fn aspeyruni_complex_inverse(points: *mut f64, points_len: usize) -> u32;
}

/// The nearest f32, ties to even. A NaN gives a NaN, and with which bits is not promised.
pub fn narrow(x: f64) -> f32 {
    unsafe { aspeyruni_narrow(x) }
}

/// The bits of that f32; for a NaN 7FC00000.
pub fn narrow_bits(x: f64) -> u32 {
    unsafe { aspeyruni_narrow_bits(x) }
}

/// What `narrow_kind` answers: what the f32 is to the number.
pub mod kind {
    /// Equal to it. An infinity is, and a NaN counts as if it were.
    pub const EXACT: u32 = 0;
    /// The nearest to it, which may be a zero.
    pub const ROUNDED: u32 = 1;
    /// An infinity, where the number is finite: 2^128 - 2^103 or more in size.
    pub const OVER: u32 = 2;
}

pub fn narrow_kind(x: f64) -> u32 {
    unsafe { aspeyruni_narrow_kind(x) }
}

/// A list: number k of `xs` narrowed to place k of `out`, as far as both go; the rest of `out` stays. Several numbers are narrowed at once.
/// It answers how many of them went over (`kind::OVER`).
pub fn narrow_list(xs: &[f64], out: &mut [f32]) -> usize {
    let (to, to_len) = (out.as_mut_ptr(), out.len());
    unsafe { aspeyruni_narrow_list(xs.as_ptr(), xs.len(), to, to_len) }
}

/// 512 samples to 514 numbers, 257 bins real part then imaginary. Its refusal is `ACCEPTED` or `BUFFER`, as is that of the three below.
pub fn forward(samples: &[f32], spectrum: &mut [f64]) -> u32 {
    let (to, to_len) = (spectrum.as_mut_ptr(), spectrum.len());
    unsafe { aspeyruni_forward(samples.as_ptr(), samples.len(), to, to_len) }
}

/// How many of the inverse's 512 samples went over (`kind::OVER`); 0 where it is refused.
#[repr(C)]
#[derive(Clone, Copy, Debug, Default, PartialEq, Eq)]
pub struct Inverted {
    pub refusal: u32,
    pub overs: usize,
}

/// And back.
pub fn inverse(spectrum: &[f64], samples: &mut [f32]) -> Inverted {
    let (to, to_len) = (samples.as_mut_ptr(), samples.len());
    unsafe { aspeyruni_inverse(spectrum.as_ptr(), spectrum.len(), to, to_len) }
}

/// 256 complex points in place, 512 numbers.
pub fn complex_forward(points: &mut [f64]) -> u32 {
    unsafe { aspeyruni_complex_forward(points.as_mut_ptr(), points.len()) }
}

pub fn complex_inverse(points: &mut [f64]) -> u32 {
    unsafe { aspeyruni_complex_inverse(points.as_mut_ptr(), points.len()) }
}

/// TauCanceller, the block engine: it delivers 256 samples when 256 pairs are there.
///
/// It knows no sample rate. With P partitions it removes echo that comes 0 to 256 * P - 1 samples after its far sample: with 4 that is
/// 64 ms at 16 kHz and 21 ms at 48 kHz. Later echo stays.
///
/// The filter that it delivers through, the output filter, starts from zero and moves only in far-active blocks: those whose far energy is
/// above 1e-4 of the loudest far block's since create or reset. The 69th of them is the first that can move it, and later where the
/// microphone was muted: one in which all of near is zeros does not count. So at least 69 blocks pass, 1.1 s at 16 kHz: bit for bit
/// without suppression, and with it until the far end sounds. After that suppression takes them through a transform and back, which
/// changed a sample by 1e-15 of the loudest in its block and the one before at most (measured).
///
/// The loudest block is never forgotten. One far sample above 1,600 times the RMS of what follows, such as 10,000 where full scale is 1.0,
/// leaves no later block far active: the output filter moves no more until a reset, and echo that it does not know by then stays.
pub mod tau {
    pub const BLOCK: usize = 256;
    pub const BINS: usize = 257;
    /// Of a partition in the weights and in the spectra: its bins, real part then imaginary. In the powers it has `BINS`.
    pub const NUMBERS: usize = 2 * BINS;
    /// And the fewest are 1.
    pub const MAX_PARTITIONS: usize = 32;

    /// The room for samples that always suffices for a call of so many pairs. A flush is a call of none.
    pub const fn room(pairs: usize) -> usize {
        pairs.saturating_add(BLOCK - 1)
    }

    /// The field `outcome`: what the call's last block did.
    pub mod outcome {
        /// The call ran no block.
        pub const NOT_RUN: u32 = 0;
        pub const NO_MOVE: u32 = 1;
        /// The shadow filter became a copy of the output filter.
        pub const RESCUE: u32 = 2;
        /// The output filter moved towards the shadow, by the share `leak`: above 0, at most 0.75.
        pub const MOVE: u32 = 3;
    }

    /// The field `reason`: why the output filter did not move in the call's last block. It is the first of these that holds, in this
    /// order, or else that it moved. So where no transfer comes for minutes, it says what to look at.
    ///
    /// It is of the block rule's own test, on the two error powers and the quiet streak after this block's smoothing. A rescue, the
    /// shadow's update and the guard change some of these before the call is over, so it cannot be worked out from the state that comes
    /// back. A call that fills no block says 0, and so do a flush of nothing and a refused call; of several blocks in a call it is the
    /// last one's.
    ///
    /// The field `outcome` follows from it: 0 is `NOT_RUN`, 5 is `RESCUE`, 9 is `MOVE`, and every other is `NO_MOVE`.
    pub mod reason {
        /// No block ran. Expect it in between where a call has fewer than 256 pairs.
        pub const NO_BLOCK: u32 = 0;
        /// The block is what a flush found waiting, filled up with zeros. No filter learns from it. Expect it of every flush that delivers.
        pub const FLUSH_BLOCK: u32 = 1;
        /// The output filter gave a sample that is not finite. Both filters were cleared, which `divergence_resets` counts, and learn
        /// anew. Expect it never; where it comes, look for samples far beyond full scale.
        pub const OUTPUT_DIVERGED: u32 = 2;
        /// The loudspeaker is silent: the far end's block has at most 1e-4 of the energy of its loudest block since create or reset.
        /// Expect it in every pause. Where the far end is heard all the same, a block before was a hundred times as loud, and only a reset
        /// forgets it.
        pub const FAR_NOT_ACTIVE: u32 = 3;
        /// The detector of double talk has learnt from fewer than 64 blocks, this one included: from those that are far active and in
        /// which the microphone is not muted. Expect it for the first second of far sound at 16 kHz. While the microphone gives only zeros
        /// it stays.
        pub const NOT_ESTABLISHED: u32 = 4;
        /// The shadow filter, the one that learns, became a copy of the output filter, since its smoothed error power was above four
        /// times the output's in 8 blocks in a row. The output filter is as it was, so nothing is heard of it. Expect it seldom.
        pub const RESCUED: u32 = 5;
        /// Fewer than 6 blocks in a row were without double talk; those with a reason from 0 to 4 do not count, and end no row. Expect it
        /// in the first five blocks of an established detector, and while someone speaks in the room and five blocks longer. Where it
        /// stays, near has little of what the far end played in the last 256 * P samples.
        pub const QUIET_STREAK_SHORT: u32 = 6;
        /// The output filter's smoothed error power is 0, or a NaN: it leaves nothing of what the microphone hears, so there is nothing to
        /// gain. Expect it at most of a microphone that gives only zeros after the output diverged.
        pub const NO_OUTPUT_POWER: u32 = 7;
        /// The shadow is not better by enough: its smoothed error power has to be at least a tenth below the output filter's. Expect it
        /// from when the echo is learnt, until it changes. Where echo is heard all the same, the shadow does not learn that echo either.
        pub const NO_ADVANTAGE: u32 = 8;
        /// It moved, by the share `leak`.
        pub const MOVED: u32 = 9;

        /// The reason in words, for a log.
        pub const fn words(reason: u32) -> &'static str {
            match reason {
                NO_BLOCK => "no block run",
                FLUSH_BLOCK => "flush block",
                OUTPUT_DIVERGED => "output diverged",
                FAR_NOT_ACTIVE => "far not active",
                NOT_ESTABLISHED => "detector not established",
                RESCUED => "rescued",
                QUIET_STREAK_SHORT => "quiet streak below 6",
                NO_OUTPUT_POWER => "output power not above 0",
                NO_ADVANTAGE => "advantage not at least 0.1",
                MOVED => "moved",
                _ => "unknown reason",
            }
        }
    }

    /// How many numbers a partition has in each of the four lent buffers.
    pub const LENT: [usize; 4] = [NUMBERS, NUMBERS, NUMBERS, BINS];

    /// The shadow weights, the output weights, the far spectra and their powers, each of as many numbers as `LENT` has for it, times the
    /// partitions. Any other length, of any of the four, is refused: `refusal::BUFFER`.
    ///
    /// The powers are the squared sizes of all bins of the spectra: `powers[i]` is `re * re + im * im`, where `re` is `spectra[2 * i]` and
    /// `im` is `spectra[2 * i + 1]`. (The state's field `powers` is something else.) They go with their spectra: create and reset write
    /// zeros to both, and every block, a flush's too, writes one partition of both. So an engine is five things, its state and the four
    /// buffers. To store it, keep all five as the last call left them, and hand in all five to go on. For one that was stored before
    /// 0.4.0, without powers, work them out as above.
    ///
    /// No refusal tells of false powers: they are followed. From true ones a bin's step factor, by which the shadow learns, is 0.02 to 1;
    /// where the bin's powers sum up to -2.0 and its `far_power_mean` is 1.0, it is 4.0. False powers are gone after P blocks, since every
    /// block writes a partition's; what the shadow and `far_power_mean` took from them is not.
    pub type Lent<'a> = [&'a mut [f64]; 4];

    #[repr(C)]
    #[derive(Clone, Copy, Debug)]
    pub struct Far {
        pub window: [f32; 2 * BLOCK],
        pub head: usize,
        pub far_active: bool,
        pub far_energy_peak: f64,
    }

    #[repr(C)]
    #[derive(Clone, Copy, Debug, Default)]
    pub struct Detector {
        pub double_talk: bool,
        pub dtd_collapsed: bool,
        pub protect_output: bool,
        pub dtd_blocks: u32,
        pub dtd_baseline: f64,
        pub dtd_deviation: f64,
        pub coherence_smooth: f64,
        pub step_scale: f64,
    }

    #[repr(C)]
    #[derive(Clone, Copy, Debug, Default)]
    pub struct Paths {
        pub shadow_error_power: f64,
        pub output_error_power: f64,
        pub quiet_streak: u32,
        pub rescue_streak: u32,
    }

    #[repr(C)]
    #[derive(Clone, Copy, Debug)]
    pub struct Suppressor {
        pub echo_power: [f64; BINS],
        pub error_power: [f64; BINS],
        pub gain: [f64; BINS],
        pub error_window: [f32; 2 * BLOCK],
    }

    #[repr(C)]
    #[derive(Clone, Copy, Debug, Default)]
    pub struct Guard {
        pub divergence_near_power: f64,
        pub divergence_out_power: f64,
    }

    #[repr(C)]
    #[derive(Clone, Copy, Debug, Default)]
    pub struct Powers {
        pub near_power: f64,
        pub residual_power: f64,
    }

    #[repr(C)]
    #[derive(Clone, Copy, Debug)]
    pub struct Mic {
        pub detector: Detector,
        pub paths: Paths,
        pub far_power_mean: [f64; BINS],
        pub suppressor: Suppressor,
        pub guard: Guard,
        pub powers: Powers,
        pub transfers: u64,
        pub divergence_resets: u64,
    }

    #[repr(C)]
    #[derive(Clone, Copy, Debug)]
    pub struct TauCanceller {
        pub partitions: usize,
        pub suppress: bool,
        pub carried: usize,
        pub near_carry: [f32; BLOCK],
        pub far_carry: [f32; BLOCK],
        pub far: Far,
        pub mic: Mic,
    }

    /// Of create and reset.
    #[repr(C)]
    #[derive(Clone, Copy, Debug)]
    pub struct Started {
        pub refusal: u32,
        pub state: TauCanceller,
    }

    /// Of process and flush: what the call delivers and leaves, and then its report.
    #[repr(C)]
    #[derive(Clone, Copy, Debug)]
    pub struct Answer {
        pub refusal: u32,
        pub delivered: usize,
        pub state: TauCanceller,
        pub transfers: u64,
        pub divergence_resets: u64,
        pub double_talk: bool,
        pub outcome: u32,
        pub reason: u32,
        /// For a box that clips: how many samples of the call's last block went over. Such a sample was a finite number, and became an
        /// infinity as it was narrowed (`kind::OVER`) at the end of one of the block's inverse transforms. One that was infinite or a NaN
        /// before that does not count.
        ///
        /// It is the sum over these transforms, with suppression and without: one for the estimate of each filter, one for each partition
        /// where the shadow is updated, and one where the suppressor runs. Of each all 512 samples count, those too that the block drops;
        /// so it is at most 512 * (P + 3). Where the output filter's estimate has one in the half that is used, that filter diverges, and
        /// both are cleared.
        ///
        /// Expect 0. A call that fills no block says 0, and so do a flush of nothing and a refused call; of several blocks in a call it is
        /// the last one's.
        pub overs: u32,
        pub leak: f64,
    }

    unsafe extern "C" {
        fn aspeyruni_tau_create(
            answer: *mut Started,
            partitions: usize,
            suppress: bool,
            shadow: *mut f64,
            shadow_len: usize,
            output: *mut f64,
            output_len: usize,
            spectra: *mut f64,
            spectra_len: usize,
            powers: *mut f64,
            powers_len: usize,
        );
        fn aspeyruni_tau_process(
            answer: *mut Answer,
            state: TauCanceller,
            shadow: *mut f64,
            shadow_len: usize,
            output: *mut f64,
            output_len: usize,
            spectra: *mut f64,
            spectra_len: usize,
            powers: *mut f64,
            powers_len: usize,
            near: *const f32,
            near_len: usize,
            far: *const f32,
            far_len: usize,
            out: *mut f32,
            out_len: usize,
        );
        fn aspeyruni_tau_flush(
            answer: *mut Answer,
            state: TauCanceller,
            shadow: *mut f64,
            shadow_len: usize,
            output: *mut f64,
            output_len: usize,
            spectra: *mut f64,
            spectra_len: usize,
            powers: *mut f64,
            powers_len: usize,
            out: *mut f32,
            out_len: usize,
        );
        fn aspeyruni_tau_reset(
            answer: *mut Started,
            state: TauCanceller,
            shadow: *mut f64,
            shadow_len: usize,
            output: *mut f64,
            output_len: usize,
            spectra: *mut f64,
            spectra_len: usize,
            powers: *mut f64,
            powers_len: usize,
        );
    }

    pub fn create(
        partitions: usize,
        suppress: bool,
        [shadow, output, spectra, powers]: Lent,
    ) -> Started {
        answer!(aspeyruni_tau_create(partitions, suppress) lent(shadow, output, spectra, powers))
    }

    /// Delivers 256 samples for each block that the pairs fill, to the first places of `out`.
    pub fn process(
        state: TauCanceller,
        [shadow, output, spectra, powers]: Lent,
        near: &[f32],
        far: &[f32],
        out: &mut [f32],
    ) -> Answer {
        answer!(
            aspeyruni_tau_process(state) lent(shadow, output, spectra, powers) read(near, far) written(out)
        )
    }

    /// `process` from the state of an earlier answer, whose place takes the new one. The state is copied into the call and nowhere
    /// else, which is what a call of a few pairs costs.
    pub fn process_on(
        answer: &mut Answer,
        [shadow, output, spectra, powers]: Lent,
        near: &[f32],
        far: &[f32],
        out: &mut [f32],
    ) {
        let place: *mut Answer = answer;
        unsafe {
            aspeyruni_tau_process(
                place,
                (*place).state,
                shadow.as_mut_ptr(),
                shadow.len(),
                output.as_mut_ptr(),
                output.len(),
                spectra.as_mut_ptr(),
                spectra.len(),
                powers.as_mut_ptr(),
                powers.len(),
                near.as_ptr(),
                near.len(),
                far.as_ptr(),
                far.len(),
                out.as_mut_ptr(),
                out.len(),
            )
        }
    }

    /// As of a call that ran no block: where calls of `process_on` begin.
    impl From<Started> for Answer {
        fn from(Started { refusal, state }: Started) -> Answer {
            Answer {
                refusal,
                delivered: 0,
                state,
                transfers: state.mic.transfers,
                divergence_resets: state.mic.divergence_resets,
                double_talk: state.mic.detector.double_talk,
                outcome: outcome::NOT_RUN,
                reason: reason::NO_BLOCK,
                overs: 0,
                leak: 0.0,
            }
        }
    }

    /// Delivers what waits, at most 255 samples.
    pub fn flush(
        state: TauCanceller,
        [shadow, output, spectra, powers]: Lent,
        out: &mut [f32],
    ) -> Answer {
        answer!(aspeyruni_tau_flush(state) lent(shadow, output, spectra, powers) written(out))
    }

    /// Keeps the settings and the two counters.
    pub fn reset(state: TauCanceller, [shadow, output, spectra, powers]: Lent) -> Started {
        answer!(aspeyruni_tau_reset(state) lent(shadow, output, spectra, powers))
    }
}

/// RhoCanceller, the time-domain engine: a sample out for each pair, at once.
///
/// It learns in no pair where |near| is above half of the largest |far| among its taps, nor in the 15 ms after one: so echo has to be at
/// most half as loud as the far end.
pub mod rho {
    pub const MAX_TAPS: usize = 8192;

    #[repr(C)]
    #[derive(Clone, Copy, Debug, Default)]
    pub struct RhoCanceller {
        pub taps: usize,
        pub pos: usize,
        pub hangover_samples: u32,
        pub hangover_remaining: u32,
        pub near_power: f64,
        pub residual_power: f64,
        pub divergence_resets: u64,
    }

    #[repr(C)]
    #[derive(Clone, Copy, Debug, Default)]
    pub struct Report {
        pub divergence_resets: u64,
        pub double_talk: bool,
    }

    /// Of create and reset.
    #[repr(C)]
    #[derive(Clone, Copy, Debug)]
    pub struct Started {
        pub refusal: u32,
        pub state: RhoCanceller,
    }

    /// Of process and flush.
    #[repr(C)]
    #[derive(Clone, Copy, Debug, Default)]
    pub struct Answer {
        pub refusal: u32,
        pub delivered: usize,
        pub state: RhoCanceller,
        pub report: Report,
    }

    unsafe extern "C" {
        fn aspeyruni_rho_create(
            answer: *mut Started,
            sample_rate: u32,
            tail_ms: u32,
            weights: *mut f32,
            weights_len: usize,
            history: *mut f32,
            history_len: usize,
        );
        fn aspeyruni_rho_process(
            answer: *mut Answer,
            state: RhoCanceller,
            weights: *mut f32,
            weights_len: usize,
            history: *mut f32,
            history_len: usize,
            near: *const f32,
            near_len: usize,
            far: *const f32,
            far_len: usize,
            out: *mut f32,
            out_len: usize,
        );
        fn aspeyruni_rho_flush(
            answer: *mut Answer,
            state: RhoCanceller,
            weights: *const f32,
            weights_len: usize,
            history: *const f32,
            history_len: usize,
        );
        fn aspeyruni_rho_reset(
            answer: *mut Started,
            state: RhoCanceller,
            weights: *mut f32,
            weights_len: usize,
            history: *mut f32,
            history_len: usize,
        );
    }

    /// Rate 8,000 to 48,000, tail 0 to 1,000 ms; taps, and the numbers of either buffer, are floor(tail * rate / 1000), at least 1 and at
    /// most `MAX_TAPS`.
    pub fn create(
        sample_rate: u32,
        tail_ms: u32,
        weights: &mut [f32],
        history: &mut [f32],
    ) -> Started {
        answer!(aspeyruni_rho_create(sample_rate, tail_ms) lent(weights, history))
    }

    pub fn process(
        state: RhoCanceller,
        weights: &mut [f32],
        history: &mut [f32],
        near: &[f32],
        far: &[f32],
        out: &mut [f32],
    ) -> Answer {
        answer!(aspeyruni_rho_process(state) lent(weights, history) read(near, far) written(out))
    }

    pub fn flush(state: RhoCanceller, weights: &[f32], history: &[f32]) -> Answer {
        answer!(aspeyruni_rho_flush(state) read(weights, history))
    }

    pub fn reset(state: RhoCanceller, weights: &mut [f32], history: &mut [f32]) -> Started {
        answer!(aspeyruni_rho_reset(state) lent(weights, history))
    }
}

// ---- records: what went into an engine's calls and what came out, with each flush and each reset at its place

/// The bytes of a record's header: the mark EC 0E, the kind, a zero byte, and the payload's length, least byte first.
pub const RECORD_HEADER: usize = 6;
/// So a record holds at most 512 pairs or 1,024 samples, where one call of an engine takes `MAX_PAIRS`.
pub const RECORD_MAX_PAYLOAD: usize = 4096;
/// Room that always suffices.
pub const RECORD_MAX: usize = RECORD_HEADER + RECORD_MAX_PAYLOAD;

/// What a record is of. Samples in its payload are f32s, the least byte first.
pub mod record_kind {
    /// Near then far: 8 bytes a pair, or none at all.
    pub const PAIRS: u32 = 1;
    /// Samples that a call delivered: 4 bytes each, or none at all.
    pub const OUTPUT: u32 = 2;
    /// Empty.
    pub const FLUSH: u32 = 3;
    /// Empty.
    pub const RESET: u32 = 4;
}

/// The record is the first `size` of the bytes, and its payload the `payload_len` from `payload_at` on. All but the refusal is 0 where
/// there is one; the payload of a flush or a reset that is accepted has a length of 0 too.
#[repr(C)]
#[derive(Clone, Copy, Debug, Default, PartialEq, Eq)]
pub struct RecordRead {
    pub refusal: u32,
    pub kind: u32,
    pub size: usize,
    pub payload_at: usize,
    pub payload_len: usize,
}

#[repr(C)]
#[derive(Clone, Copy, Debug, Default, PartialEq, Eq)]
pub struct RecordWritten {
    pub refusal: u32,
    pub written: usize,
}

unsafe extern "C" {
    fn aspeyruni_record_read(answer: *mut RecordRead, bytes: *const u8, bytes_len: usize);
    fn aspeyruni_record_write(
        kind: u32,
        payload: *const u8,
        payload_len: usize,
        out: *mut u8,
        out_len: usize,
    ) -> RecordWritten;
}

/// The record that the bytes begin with. What lies behind it is not looked at: there the next one of a capture begins. It refuses `SHORT`
/// for fewer than six bytes, then `MARK`, then `HEADER`, and then `SHORT` for a payload that is not all there.
///
/// No bytes at all are `SHORT` too. A capture ends where none are left, so ask that before each read.
pub fn record_read(bytes: &[u8]) -> RecordRead {
    answer!(aspeyruni_record_read() read(bytes))
}

/// Writes a record to the first `written` places of `out`, the header's and the payload's. The others stay as they were, and so do all
/// where it is refused: `HEADER`, then `ROOM`. Bytes stay bytes: a payload comes back as it went in, a NaN with the bits that it had.
pub fn record_write(kind: u32, payload: &[u8], out: &mut [u8]) -> RecordWritten {
    let (to, to_len) = (out.as_mut_ptr(), out.len());
    unsafe { aspeyruni_record_write(kind, payload.as_ptr(), payload.len(), to, to_len) }
}
