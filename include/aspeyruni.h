/* Aspeyruni, an acoustic echo canceller whose samples are proved: what a C host calls. The functions are those of crates/capi, and
 * docs/PROMISES.md says what each promises. Link libaspeyruni, which `make` builds.
 *
 * A buffer is a pointer and how many numbers it has. A state is passed by value, and comes back in the answer; any state may be passed,
 * and a bad one is refused. For an answer that is a struct the caller gives the place, before all else. The two exceptions are what
 * aspeyruni_inverse and aspeyruni_record_write answer: these 16 bytes come back by value, which is in two registers on x86-64 as on Arm.
 * Two states are the same where their fields are: the bytes between fields hold anything, so memcmp may not be asked.
 *
 * What a caller has to see to, since no refusal tells of it:
 * - Overlap. What a call writes, the answer's place too, may not overlap a buffer of that call. So there is no work in place: with
 *   out == near_end Tau reads samples that it has just delivered. Frames of 160 pairs show it, frames of 256 happen not to.
 * - A state goes only with its own lent buffers, all of them, as its last call left them. Others of the right length are taken for them.
 * - A bool's byte is 0 or 1, also in a state that was read from a file.
 * - Threads. An engine is its state and its lent buffers, and the library has no other memory. So calls of different engines may run at
 *   once; two calls on one engine may not.
 * - Stack. A call of Tau takes up to 78,500 bytes (measured on x86-64), of which 15 KB are the state that goes in; any other call takes up
 *   to 13 KB. A thread needs 96 KB to spare for Tau, and 16 KB for the rest.
 *
 * Samples: `near_end` is what the microphone hears, `far_end` what the loudspeaker plays at the same time; the same places of both are a
 * pair. A sample that is not finite is read as 0.0. Full scale is 1.0: in both engines a far end of an RMS below about 0.001 is learnt
 * more slowly, and one below about 0.0001 hardly at all, since one constant is absolute. A larger scale is cancelled as well, 16-bit
 * integers as floats too. */
#ifndef ASPEYRUNI_H
#define ASPEYRUNI_H

#include <stdbool.h>
#include <stddef.h>
#include <stdint.h>

/* Header and library have to be of one version, and nothing checks it: before 1.0.0 a new minor version may change a struct's layout or a
 * call's arguments. */
#define ASPEYRUNI_VERSION "0.4.0"
#define ASPEYRUNI_VERSION_MAJOR 0
#define ASPEYRUNI_VERSION_MINOR 4
#define ASPEYRUNI_VERSION_PATCH 0

/* The most pairs of one call, of either engine. */
#define ASPEYRUNI_MAX_PAIRS 4096

#ifdef __cplusplus
extern "C" {
#endif

/* The field `refusal` of every answer. A refused call delivers nothing, gives back the state as it was (a refused create: all zero), and
 * writes nothing else. 1 to 6 are the engines', 7 to 9 those of records, whose writer gives 5 too. */
enum aspeyruni_refusal {
    ASPEYRUNI_ACCEPTED = 0,
    ASPEYRUNI_REFUSED_SETTING = 1, /* create: a setting outside its range */
    ASPEYRUNI_REFUSED_BUFFER = 2,  /* a lent buffer that has not exactly the needed length */
    ASPEYRUNI_REFUSED_LENGTHS = 3, /* near and far of different lengths */
    ASPEYRUNI_REFUSED_PAIRS = 4,   /* more than ASPEYRUNI_MAX_PAIRS in one call */
    ASPEYRUNI_REFUSED_ROOM = 5,    /* an output buffer shorter than this call would deliver */
    ASPEYRUNI_REFUSED_STATE = 6,   /* a state with a number outside its range */
    ASPEYRUNI_REFUSED_MARK = 7,    /* bytes that do not begin with a record's mark */
    ASPEYRUNI_REFUSED_HEADER = 8,  /* an unknown kind, a payload too long or not of the kind's length, a fourth byte that is not zero */
    ASPEYRUNI_REFUSED_SHORT = 9    /* fewer bytes than a header has, or than the header says */
};

/* ---- numbers and the transform */

/* The nearest f32, ties to even. A NaN gives a NaN, and with which bits is not promised. */
float aspeyruni_narrow(double x);
/* The bits of that f32; for a NaN 7FC00000. */
uint32_t aspeyruni_narrow_bits(double x);

/* What the f32 is to the number. */
enum aspeyruni_kind {
    ASPEYRUNI_EXACT = 0,   /* equal to it. An infinity is, and a NaN counts as if it were */
    ASPEYRUNI_ROUNDED = 1, /* the nearest to it, which may be a zero */
    ASPEYRUNI_OVER = 2     /* an infinity, where the number is finite: 2^128 - 2^103 or more in size */
};
uint32_t aspeyruni_narrow_kind(double x);

/* A list: number k of xs narrowed to place k of out, as far as both go; the rest of out stays. Several numbers are narrowed at once. It
 * answers how many of them went over (ASPEYRUNI_OVER). */
size_t aspeyruni_narrow_list(const double *xs, size_t xs_len, float *out, size_t out_len);

/* How many of the inverse's 512 samples went over; 0 where it is refused. */
struct aspeyruni_inverted {
    uint32_t refusal;
    size_t overs;
};

/* 512 samples to 514 numbers, 257 bins real part then imaginary, and back; 256 complex points in place, 512 numbers. The refusal is
 * ASPEYRUNI_ACCEPTED or ASPEYRUNI_REFUSED_BUFFER. */
uint32_t aspeyruni_forward(const float *samples, size_t samples_len, double *spectrum, size_t spectrum_len);
struct aspeyruni_inverted aspeyruni_inverse(const double *spectrum, size_t spectrum_len, float *samples, size_t samples_len);
uint32_t aspeyruni_complex_forward(double *points, size_t points_len);
uint32_t aspeyruni_complex_inverse(double *points, size_t points_len);

/* ---- TauCanceller, the block engine: it delivers 256 samples when 256 pairs are there
 *
 * It knows no sample rate. With P partitions it removes echo that comes 0 to 256 * P - 1 samples after its far sample: with 4 that is
 * 64 ms at 16 kHz and 21 ms at 48 kHz. Later echo stays.
 *
 * The filter that it delivers through, the output filter, starts from zero and moves only in far-active blocks: those whose far energy is
 * above 1e-4 of the loudest far block's since create or reset. The 69th of them is the first that can move it, and later where the
 * microphone was muted: one in which all of near is zeros does not count. So at least 69 blocks pass, 1.1 s at 16 kHz: bit for bit
 * without suppression, and with it until the far end sounds. After that suppression takes them through a transform and back, which
 * changed a sample by 1e-15 of the loudest in its block and the one before at most (measured).
 *
 * The loudest block is never forgotten. One far sample above 1,600 times the RMS of what follows, such as 10,000 where full scale is 1.0,
 * leaves no later block far active: the output filter moves no more until a reset, and echo that it does not know by then stays. */
#define ASPEYRUNI_BLOCK 256
#define ASPEYRUNI_BINS 257
#define ASPEYRUNI_TAU_MAX_PARTITIONS 32 /* and the fewest are 1 */

/* The four lent buffers, by how many numbers they have. Any other length, of any of them, is refused: ASPEYRUNI_REFUSED_BUFFER.
 * - shadow, output, spectra: ASPEYRUNI_TAU_NUMBERS each, for each partition its bins, real part then imaginary.
 * - powers: ASPEYRUNI_TAU_POWERS, the squared size of every bin of spectra. powers[i] is re * re + im * im, where re is spectra[2 * i] and
 *   im is spectra[2 * i + 1]. (The state's field `powers` is something else.)
 *
 * Powers go with their spectra: create and reset write zeros to both, and every block, a flush's too, writes one partition of both. So an
 * engine is five things, its state and the four buffers. To store it, keep all five as the last call left them, and hand in all five to go
 * on. For one that was stored before 0.4.0, without powers, work them out as above, each product rounded before the sum: fused they are
 * other numbers.
 *
 * No refusal tells of false powers: they are followed. From true ones a bin's step factor, by which the shadow learns, is 0.02 to 1; where
 * the bin's powers sum up to -2.0 and its `far_power_mean` is 1.0, it is 4.0. False powers are gone after P blocks, since every block
 * writes a partition's; what the shadow and `far_power_mean` took from them is not. */
#define ASPEYRUNI_TAU_NUMBERS(partitions) (2 * ASPEYRUNI_BINS * (size_t)(partitions))
#define ASPEYRUNI_TAU_POWERS(partitions) (ASPEYRUNI_BINS * (size_t)(partitions))

/* The room for samples that always suffices for a call of so many pairs. A flush is a call of none. */
#define ASPEYRUNI_TAU_ROOM(pairs) ((size_t)(pairs) + ASPEYRUNI_BLOCK - 1)

struct aspeyruni_far {
    float window[2 * ASPEYRUNI_BLOCK];
    size_t head;
    bool far_active;
    double far_energy_peak;
};

struct aspeyruni_detector {
    bool double_talk;
    bool dtd_collapsed;
    bool protect_output;
    uint32_t dtd_blocks;
    double dtd_baseline;
    double dtd_deviation;
    double coherence_smooth;
    double step_scale;
};

struct aspeyruni_paths {
    double shadow_error_power;
    double output_error_power;
    uint32_t quiet_streak;
    uint32_t rescue_streak;
};

struct aspeyruni_suppressor {
    double echo_power[ASPEYRUNI_BINS];
    double error_power[ASPEYRUNI_BINS];
    double gain[ASPEYRUNI_BINS];
    float error_window[2 * ASPEYRUNI_BLOCK];
};

struct aspeyruni_guard {
    double divergence_near_power;
    double divergence_out_power;
};

struct aspeyruni_powers {
    double near_power;
    double residual_power;
};

struct aspeyruni_mic {
    struct aspeyruni_detector detector;
    struct aspeyruni_paths paths;
    double far_power_mean[ASPEYRUNI_BINS];
    struct aspeyruni_suppressor suppressor;
    struct aspeyruni_guard guard;
    struct aspeyruni_powers powers;
    uint64_t transfers;
    uint64_t divergence_resets;
};

struct aspeyruni_tau {
    size_t partitions;
    bool suppress;
    size_t carried;
    float near_carry[ASPEYRUNI_BLOCK];
    float far_carry[ASPEYRUNI_BLOCK];
    struct aspeyruni_far far_end; /* not `far`, which windows.h makes a macro, as it does `near` */
    struct aspeyruni_mic mic;
};

struct aspeyruni_tau_started {
    uint32_t refusal;
    struct aspeyruni_tau state;
};

/* The field `outcome`: what the call's last block did. */
enum aspeyruni_outcome {
    ASPEYRUNI_OUTCOME_NOT_RUN = 0, /* the call ran no block */
    ASPEYRUNI_OUTCOME_NO_MOVE = 1,
    ASPEYRUNI_OUTCOME_RESCUE = 2, /* the shadow filter became a copy of the output filter */
    ASPEYRUNI_OUTCOME_MOVE = 3    /* the output filter moved towards the shadow, by the share `leak`: above 0, at most 0.75 */
};

/* The field `reason`: why the output filter did not move in the call's last block. It is the first of these that holds, in this order, or
 * else that it moved. So where no transfer comes for minutes, it says what to look at.
 *
 * It is of the block rule's own test, on the two error powers and the quiet streak after this block's smoothing. A rescue, the shadow's
 * update and the guard change some of these before the call is over, so it cannot be worked out from the state that comes back. A call that
 * fills no block says 0, and so do a flush of nothing and a refused call; of several blocks in a call it is the last one's.
 *
 * `outcome` follows from it: 0 is NOT_RUN, 5 is RESCUE, 9 is MOVE, and every other is NO_MOVE. */
enum aspeyruni_reason {
    /* No block ran. Expect it in between where a call has fewer than 256 pairs. */
    ASPEYRUNI_REASON_NO_BLOCK = 0,
    /* The block is what a flush found waiting, filled up with zeros. No filter learns from it. Expect it of every flush that delivers. */
    ASPEYRUNI_REASON_FLUSH_BLOCK = 1,
    /* The output filter gave a sample that is not finite. Both filters were cleared, which `divergence_resets` counts, and learn anew.
     * Expect it never; where it comes, look for samples far beyond full scale. */
    ASPEYRUNI_REASON_OUTPUT_DIVERGED = 2,
    /* The loudspeaker is silent: the far end's block has at most 1e-4 of the energy of its loudest block since create or reset. Expect it
     * in every pause. Where the far end is heard all the same, a block before was a hundred times as loud, and only a reset forgets it. */
    ASPEYRUNI_REASON_FAR_NOT_ACTIVE = 3,
    /* The detector of double talk has learnt from fewer than 64 blocks, this one included: from those that are far active and in which the
     * microphone is not muted. Expect it for the first second of far sound at 16 kHz. While the microphone gives only zeros it stays. */
    ASPEYRUNI_REASON_NOT_ESTABLISHED = 4,
    /* The shadow filter, the one that learns, became a copy of the output filter, since its smoothed error power was above four times the
     * output's in 8 blocks in a row. The output filter is as it was, so nothing is heard of it. Expect it seldom. */
    ASPEYRUNI_REASON_RESCUED = 5,
    /* Fewer than 6 blocks in a row were without double talk; those with a reason from 0 to 4 do not count, and end no row. Expect it in the
     * first five blocks of an established detector, and while someone speaks in the room and five blocks longer. Where it stays, near has
     * little of what the far end played in the last 256 * P samples. */
    ASPEYRUNI_REASON_QUIET_STREAK_SHORT = 6,
    /* The output filter's smoothed error power is 0, or a NaN: it leaves nothing of what the microphone hears, so there is nothing to gain.
     * Expect it at most of a microphone that gives only zeros after the output diverged. */
    ASPEYRUNI_REASON_NO_OUTPUT_POWER = 7,
    /* The shadow is not better by enough: its smoothed error power has to be at least a tenth below the output filter's. Expect it
     * from when the echo is learnt, until it changes. Where echo is heard all the same, the shadow does not learn that echo either. */
    ASPEYRUNI_REASON_NO_ADVANTAGE = 8,
    /* It moved, by the share `leak`. */
    ASPEYRUNI_REASON_MOVED = 9
};

/* The reason in words, for a log. */
static inline const char *aspeyruni_reason_words(uint32_t reason)
{
    switch (reason) {
    case ASPEYRUNI_REASON_NO_BLOCK:
        return "no block run";
    case ASPEYRUNI_REASON_FLUSH_BLOCK:
        return "flush block";
    case ASPEYRUNI_REASON_OUTPUT_DIVERGED:
        return "output diverged";
    case ASPEYRUNI_REASON_FAR_NOT_ACTIVE:
        return "far not active";
    case ASPEYRUNI_REASON_NOT_ESTABLISHED:
        return "detector not established";
    case ASPEYRUNI_REASON_RESCUED:
        return "rescued";
    case ASPEYRUNI_REASON_QUIET_STREAK_SHORT:
        return "quiet streak below 6";
    case ASPEYRUNI_REASON_NO_OUTPUT_POWER:
        return "output power not above 0";
    case ASPEYRUNI_REASON_NO_ADVANTAGE:
        return "advantage not at least 0.1";
    case ASPEYRUNI_REASON_MOVED:
        return "moved";
    default:
        return "unknown reason";
    }
}

/* The field `overs`, for a box that clips: how many samples of the call's last block went over. Such a sample was a finite number, and
 * became an infinity as it was narrowed (ASPEYRUNI_OVER) at the end of one of the block's inverse transforms. One that was infinite or a
 * NaN before that does not count.
 *
 * It is the sum over these transforms, with suppression and without: one for the estimate of each filter, one for each partition where the
 * shadow is updated, and one where the suppressor runs. Of each all 512 samples count, those too that the block drops; so it is at most
 * 512 * (P + 3). Where the output filter's estimate has one in the half that is used, that filter diverges, and both are cleared.
 *
 * Expect 0. A call that fills no block says 0, and so do a flush of nothing and a refused call; of several blocks in a call it is the last
 * one's. */
struct aspeyruni_tau_answer {
    uint32_t refusal;
    size_t delivered;
    struct aspeyruni_tau state;
    uint64_t transfers;
    uint64_t divergence_resets;
    bool double_talk;
    uint32_t outcome;
    uint32_t reason;
    uint32_t overs;
    double leak;
};

void aspeyruni_tau_create(struct aspeyruni_tau_started *answer, size_t partitions, bool suppress, double *shadow, size_t shadow_len,
                          double *output, size_t output_len, double *spectra, size_t spectra_len, double *powers, size_t powers_len);

/* Delivers 256 samples for each block that the pairs fill, to the first places of `out`. `answer` may be the one that the state is
 * from, as in aspeyruni_tau_process(&answer, answer.state, ..): the state is then copied into the call and nowhere else. */
void aspeyruni_tau_process(struct aspeyruni_tau_answer *answer, struct aspeyruni_tau state, double *shadow, size_t shadow_len,
                           double *output, size_t output_len, double *spectra, size_t spectra_len, double *powers, size_t powers_len,
                           const float *near_end, size_t near_len, const float *far_end, size_t far_len, float *out, size_t out_len);

/* Delivers what waits, at most 255 samples. */
void aspeyruni_tau_flush(struct aspeyruni_tau_answer *answer, struct aspeyruni_tau state, double *shadow, size_t shadow_len,
                         double *output, size_t output_len, double *spectra, size_t spectra_len, double *powers, size_t powers_len,
                         float *out, size_t out_len);

/* Keeps the settings and the two counters. */
void aspeyruni_tau_reset(struct aspeyruni_tau_started *answer, struct aspeyruni_tau state, double *shadow, size_t shadow_len,
                         double *output, size_t output_len, double *spectra, size_t spectra_len, double *powers, size_t powers_len);

/* ---- RhoCanceller, the time-domain engine: a sample out for each pair, at once
 *
 * It learns in no pair where |near| is above half of the largest |far| among its taps, nor in the 15 ms after one: so echo has to be at
 * most half as loud as the far end. */
#define ASPEYRUNI_RHO_MAX_TAPS 8192

struct aspeyruni_rho {
    size_t taps;
    size_t pos;
    uint32_t hangover_samples;
    uint32_t hangover_remaining;
    double near_power;
    double residual_power;
    uint64_t divergence_resets;
};

struct aspeyruni_rho_report {
    uint64_t divergence_resets;
    bool double_talk;
};

struct aspeyruni_rho_started {
    uint32_t refusal;
    struct aspeyruni_rho state;
};

struct aspeyruni_rho_answer {
    uint32_t refusal;
    size_t delivered;
    struct aspeyruni_rho state;
    struct aspeyruni_rho_report report;
};

/* Rate 8,000 to 48,000, tail 0 to 1,000 ms; taps, and the numbers of either buffer, are floor(tail * rate / 1000), at least 1 and at most
 * ASPEYRUNI_RHO_MAX_TAPS. */
void aspeyruni_rho_create(struct aspeyruni_rho_started *answer, uint32_t sample_rate, uint32_t tail_ms, float *weights,
                          size_t weights_len, float *history, size_t history_len);

void aspeyruni_rho_process(struct aspeyruni_rho_answer *answer, struct aspeyruni_rho state, float *weights, size_t weights_len,
                           float *history, size_t history_len, const float *near_end, size_t near_len, const float *far_end,
                           size_t far_len, float *out, size_t out_len);

void aspeyruni_rho_flush(struct aspeyruni_rho_answer *answer, struct aspeyruni_rho state, const float *weights, size_t weights_len,
                         const float *history, size_t history_len);

void aspeyruni_rho_reset(struct aspeyruni_rho_started *answer, struct aspeyruni_rho state, float *weights, size_t weights_len,
                         float *history, size_t history_len);

/* ---- records: what went into an engine's calls and what came out, with each flush and each reset at its place
 *
 * A capture of records is bytes, record behind record. A record is a header and a payload, and the header is the mark EC 0E, the kind, a
 * zero byte, and the payload's length, least byte first. These two calls have no state and open no file; examples/box.c is a host that
 * records its own calls.
 *
 * - Bytes stay bytes: a payload comes back as it went in, a NaN with the bits that it had. Samples in it are f32s with the least byte
 *   first, which on a machine of that order is how they lie in memory.
 * - A record holds at most 512 pairs or 1,024 samples, where one call of an engine takes 4,096 pairs.
 * - A read looks at the first record only. That is the first `size` of the bytes given; the next begins behind them, and nothing there is
 *   looked at.
 * - No bytes at all are refused too, as ASPEYRUNI_REFUSED_SHORT. A capture ends where none are left, so ask that before each read.
 * - The output may not overlap the payload, so a payload is not turned into a record where it stands. */
#define ASPEYRUNI_RECORD_HEADER 6
#define ASPEYRUNI_RECORD_MAX_PAYLOAD 4096
#define ASPEYRUNI_RECORD_MAX (ASPEYRUNI_RECORD_HEADER + ASPEYRUNI_RECORD_MAX_PAYLOAD) /* room that always suffices */

enum aspeyruni_record_kind {
    ASPEYRUNI_RECORD_PAIRS = 1,  /* near then far: 8 bytes a pair, or none at all */
    ASPEYRUNI_RECORD_OUTPUT = 2, /* samples that a call delivered: 4 bytes each, or none at all */
    ASPEYRUNI_RECORD_FLUSH = 3,  /* empty */
    ASPEYRUNI_RECORD_RESET = 4   /* empty */
};

/* The payload is the `payload_len` bytes from bytes + payload_at on. All but the refusal is 0 where there is one; the payload of a flush
 * or a reset that is accepted has a length of 0 too. */
struct aspeyruni_record_found {
    uint32_t refusal;
    uint32_t kind;
    size_t size;
    size_t payload_at;
    size_t payload_len;
};

struct aspeyruni_record_written {
    uint32_t refusal;
    size_t written;
};

/* Refuses ASPEYRUNI_REFUSED_SHORT for fewer than six bytes, then MARK, then HEADER, and then SHORT for a payload that is not all there. */
void aspeyruni_record_read(struct aspeyruni_record_found *answer, const uint8_t *bytes, size_t bytes_len);

/* Writes a record to the first `written` places of `out`, the header's and the payload's. The others stay as they were, and so do all
 * where it is refused: HEADER, then ROOM. A payload of no bytes may be NULL. */
struct aspeyruni_record_written aspeyruni_record_write(uint32_t kind, const uint8_t *payload, size_t payload_len, uint8_t *out,
                                                       size_t out_len);

#ifdef __cplusplus
}
#endif

#endif
