/* A host that gets frames of 10 ms and has to give back a frame for each, at once, as in a telephone call: 160 pairs of 16-bit samples at
 * 16 kHz from standard input, near and far in turn, least byte first, and for each such frame 160 samples of 16 bits to standard output.
 *
 * Tau delivers in blocks of 256, which frames of 160 do not fill evenly. After n frames 160 n pairs went in and floor(160 n / 256) * 256
 * samples came out, so 160 n mod 256 pairs wait in Tau. That is a multiple of 32, the greatest common divisor of 160 and 256, and so at
 * most 256 - 32 = 224. To have a whole frame to give even then, the queue of samples that came out starts with 224 samples of silence.
 * This is the delay that the canceller adds, 14 ms; with less the queue would run empty.
 *
 * At the end of the input all that went in comes out: the whole pairs of an unfinished frame are processed too, Tau is flushed, and what
 * is in the queue is written. So the output is 224 zeros and then a sample for each pair. It is the same after a failed read, with what was
 * read. Where a read, a write or a call fails the host says so on standard error, and its status is 1. At the end it writes there what
 * support asks for: where echo stays, in how many blocks the output filter moved, and in how many it did not for which reason; where a
 * box clips, how many blocks had samples that went over, and how many samples. */
#include "aspeyruni.h"
#include <math.h>
#include <stdio.h>
#include <string.h>

/* Between two frames the samples in the queue and the pairs that wait in Tau are 224 together: a frame brings 160 and takes 160. So with a
 * frame's pairs in, the queue holds at most 224 + 160. Tau delivers straight into it, behind what is there, and would refuse the call
 * (ASPEYRUNI_REFUSED_ROOM) rather than write past its end. */
enum {
    PARTITIONS = 4,
    NUMBERS = ASPEYRUNI_TAU_NUMBERS(PARTITIONS),
    POWERS = ASPEYRUNI_TAU_POWERS(PARTITIONS),
    FRAME = 160,
    SILENCE = ASPEYRUNI_BLOCK - 32,
    QUEUE = SILENCE + FRAME,
    PAIR_BYTES = 4,
    SAMPLE_BYTES = 2
};

static double shadow[NUMBERS], output[NUMBERS], spectra[NUMBERS], powers[POWERS];
static struct aspeyruni_tau_answer answer; /* of the last call, with the engine's state */
static float queue[QUEUE];
static size_t queued = SILENCE;
static unsigned long blocks[ASPEYRUNI_REASON_MOVED + 1]; /* how many had each reason; the first counts calls that ran none */
static unsigned long blocks_with_overs, overs;

static bool is_accepted(uint32_t refusal)
{
    if (refusal != ASPEYRUNI_ACCEPTED)
        fprintf(stderr, "frames: refusal %u\n", (unsigned)refusal);
    return refusal == ASPEYRUNI_ACCEPTED;
}

/* With at most 224 + 160 pairs at hand a call runs one block at most, so no block is left out of the count. */
static bool note_answer(void)
{
    queued += answer.delivered;
    blocks[answer.reason]++;
    blocks_with_overs += answer.overs > 0;
    overs += answer.overs;
    return is_accepted(answer.refusal);
}

static void tell(void)
{
    for (uint32_t reason = ASPEYRUNI_REASON_FLUSH_BLOCK; reason <= ASPEYRUNI_REASON_MOVED; reason++)
        if (blocks[reason] > 0)
            fprintf(stderr, "frames: %s: %lu\n", aspeyruni_reason_words(reason), blocks[reason]);
    fprintf(stderr, "frames: blocks with samples that went over: %lu, samples: %lu\n", blocks_with_overs, overs);
}

static float sample_of(const unsigned char *bytes)
{
    int step = bytes[0] + 256 * bytes[1];

    return (float)(step < 32768 ? step : step - 65536) / 32768.0f;
}

/* To the nearest of the 65,536 steps, a half to the even one; what is beyond full scale is clipped to the last step. A NaN gives 0. */
static int step_of(float sample)
{
    double scaled = 32768.0 * (double)sample;

    if (scaled >= 32767.0)
        return 32767;
    if (scaled <= -32768.0)
        return -32768;
    return isnan(scaled) ? 0 : (int)lrint(scaled);
}

static bool start(void)
{
    static struct aspeyruni_tau_started started;

    aspeyruni_tau_create(&started, PARTITIONS, true, shadow, NUMBERS, output, NUMBERS, spectra, NUMBERS, powers, POWERS);
    answer.state = started.state;
    return is_accepted(started.refusal);
}

static bool take(const unsigned char *bytes, size_t pairs)
{
    float near_end[FRAME], far_end[FRAME];

    for (size_t i = 0; i < pairs; i++) {
        near_end[i] = sample_of(bytes + PAIR_BYTES * i);
        far_end[i] = sample_of(bytes + PAIR_BYTES * i + SAMPLE_BYTES);
    }
    aspeyruni_tau_process(&answer, answer.state, shadow, NUMBERS, output, NUMBERS, spectra, NUMBERS, powers, POWERS, near_end, pairs,
                          far_end, pairs, queue + queued, QUEUE - queued);
    return note_answer();
}

static bool flush(void)
{
    aspeyruni_tau_flush(&answer, answer.state, shadow, NUMBERS, output, NUMBERS, spectra, NUMBERS, powers, POWERS, queue + queued,
                        QUEUE - queued);
    return note_answer();
}

/* Writes the queue's first `count` samples and moves the rest, at most 224, to its start. */
static bool give(size_t count)
{
    unsigned char bytes[SAMPLE_BYTES * QUEUE];

    for (size_t i = 0; i < count; i++) {
        unsigned bits = (unsigned)step_of(queue[i]);

        bytes[SAMPLE_BYTES * i] = (unsigned char)(bits & 255);
        bytes[SAMPLE_BYTES * i + 1] = (unsigned char)(bits >> 8 & 255);
    }
    queued -= count;
    memmove(queue, queue + count, queued * sizeof *queue);
    if (fwrite(bytes, SAMPLE_BYTES, count, stdout) == count && fflush(stdout) == 0)
        return true;
    perror("frames: a write failed");
    return false;
}

int main(void)
{
    unsigned char bytes[PAIR_BYTES * FRAME];
    size_t got;
    int status = 0;

    if (!start())
        return 1;
    while ((got = fread(bytes, 1, sizeof bytes, stdin)) == sizeof bytes)
        if (!take(bytes, FRAME) || !give(FRAME))
            return 1;
    if (ferror(stdin)) {
        perror("frames: a read failed");
        status = 1;
    }
    if (!take(bytes, got / PAIR_BYTES) || !flush() || !give(queued))
        return 1;
    tell();
    if (fclose(stdout) != 0) {
        perror("frames: a write failed");
        return 1;
    }
    return status;
}
