/* How long an echo is passed after a microphone was muted, over the library: joining muted for 100 blocks, and a mute of 40 blocks in
 * mid-call, after 100 in which the echo was learnt. Far is white noise, near its echo through a path of 300 taps that dies away, or 0.0
 * while muted. A block counts as passed where what is delivered has at least half the amplitude of the echo, that is a quarter of its
 * energy. Printed are, for each of nine paths, how many blocks after the mute were passed, and after how many the last of them came. */
#include "aspeyruni.h"
#include <stdio.h>

enum { PARTITIONS = 4, NUMBERS = ASPEYRUNI_TAU_NUMBERS(PARTITIONS), POWERS = ASPEYRUNI_TAU_POWERS(PARTITIONS) };
enum { TAPS = 300, PATHS = 9, AFTER = 150 };

static double shadow[NUMBERS], output[NUMBERS], spectra[NUMBERS], powers[POWERS];
static struct aspeyruni_tau_started started;
static struct aspeyruni_tau_answer answer;
static double path[TAPS];
static float history[TAPS]; /* the latest far samples, the newest first */
static uint64_t word;

/* From -0.5 to 0.5. */
static double noise(void)
{
    word = word * 6364136223846793005u + 1442695040888963407u;
    return (double)(word >> 40) / 16777216.0 - 0.5;
}

static float echo_of(float far_sample)
{
    double sum = 0.0;

    for (int i = TAPS - 1; i > 0; i--)
        history[i] = history[i - 1];
    history[0] = far_sample;
    for (int i = 0; i < TAPS; i++)
        sum += path[i] * (double)history[i];
    return (float)sum;
}

static double energy_of(const float *samples)
{
    double sum = 0.0;

    for (int i = 0; i < ASPEYRUNI_BLOCK; i++)
        sum += (double)samples[i] * (double)samples[i];
    return sum;
}

/* One block; whether its echo was passed. */
static bool passes(bool is_muted)
{
    float near_end[ASPEYRUNI_BLOCK], far_end[ASPEYRUNI_BLOCK], out[ASPEYRUNI_BLOCK];

    for (int i = 0; i < ASPEYRUNI_BLOCK; i++) {
        far_end[i] = (float)noise();
        near_end[i] = echo_of(far_end[i]);
        if (is_muted)
            near_end[i] = 0.0f;
    }
    aspeyruni_tau_process(&answer, answer.state, shadow, NUMBERS, output, NUMBERS, spectra, NUMBERS, powers, POWERS, near_end,
                          ASPEYRUNI_BLOCK, far_end, ASPEYRUNI_BLOCK, out, ASPEYRUNI_BLOCK);
    return energy_of(out) >= energy_of(near_end) / 4.0;
}

static void hear(int blocks, bool is_muted)
{
    for (int i = 0; i < blocks; i++)
        passes(is_muted);
}

static void start(int seed, bool suppress)
{
    double size = 0.1;

    word = (uint64_t)seed * 0x9e3779b97f4a7c15u;
    for (int i = 0; i < TAPS; i++, size *= 0.985) {
        path[i] = size * noise();
        history[i] = 0.0f;
    }
    aspeyruni_tau_create(&started, PARTITIONS, suppress, shadow, NUMBERS, output, NUMBERS, spectra, NUMBERS, powers, POWERS);
    answer.state = started.state;
}

static void try_mute(const char *name, int learnt, int muted, bool suppress)
{
    printf("%s, suppression %s:", name, suppress ? "on" : "off");
    for (int seed = 1; seed <= PATHS; seed++) {
        int passed = 0, last = 0;

        start(seed, suppress);
        hear(learnt, false);
        hear(muted, true);
        for (int i = 1; i <= AFTER; i++)
            if (passes(false)) {
                passed++;
                last = i;
            }
        printf(" %d/%d", passed, last);
    }
    printf("\n");
}

int main(void)
{
    for (int suppress = 0; suppress < 2; suppress++) {
        try_mute("from the start, not muted", 0, 0, suppress);
        try_mute("muted for the first 100 blocks", 0, 100, suppress);
        try_mute("muted for 40 blocks after 100 with echo", 100, 40, suppress);
    }
    return 0;
}
