/* Reads pairs from standard input, near then far, as f32s, runs TauCanceller with four partitions and suppression, and writes the samples
 * as f32s. On a little-endian machine it does what the program `aec` does: an unfinished last pair is dropped, and after a failed read what
 * was read is still delivered. Where a read, a write or a call fails it says so on standard error, and its status is 1. */
#include "aspeyruni.h"
#include <stdio.h>

enum { PARTITIONS = 4, NUMBERS = ASPEYRUNI_TAU_NUMBERS(PARTITIONS), POWERS = ASPEYRUNI_TAU_POWERS(PARTITIONS) };
enum { PAIRS = 1024, ROOM = ASPEYRUNI_TAU_ROOM(PAIRS) };

static double shadow[NUMBERS], output[NUMBERS], spectra[NUMBERS], powers[POWERS];
static float pairs[2 * PAIRS], near_end[PAIRS], far_end[PAIRS], out[ROOM];

static bool is_accepted(uint32_t refusal)
{
    if (refusal != ASPEYRUNI_ACCEPTED)
        fprintf(stderr, "echo: refusal %u\n", (unsigned)refusal);
    return refusal == ASPEYRUNI_ACCEPTED;
}

static bool give(const struct aspeyruni_tau_answer *answer)
{
    if (!is_accepted(answer->refusal))
        return false;
    if (fwrite(out, sizeof *out, answer->delivered, stdout) != answer->delivered) {
        perror("echo: a write failed");
        return false;
    }
    return true;
}

int main(void)
{
    static struct aspeyruni_tau_started started;
    static struct aspeyruni_tau_answer answer;
    size_t count;
    int status = 0;

    aspeyruni_tau_create(&started, PARTITIONS, true, shadow, NUMBERS, output, NUMBERS, spectra, NUMBERS, powers, POWERS);
    if (!is_accepted(started.refusal))
        return 1;
    answer.state = started.state;
    do {
        count = fread(pairs, 2 * sizeof *pairs, PAIRS, stdin);
        if (ferror(stdin)) {
            perror("echo: a read failed");
            status = 1;
        }
        for (size_t i = 0; i < count; i++) {
            near_end[i] = pairs[2 * i];
            far_end[i] = pairs[2 * i + 1];
        }
        aspeyruni_tau_process(&answer, answer.state, shadow, NUMBERS, output, NUMBERS, spectra, NUMBERS, powers, POWERS, near_end, count,
                              far_end, count, out, ROOM);
        if (!give(&answer))
            return 1;
    } while (count == PAIRS);
    aspeyruni_tau_flush(&answer, answer.state, shadow, NUMBERS, output, NUMBERS, spectra, NUMBERS, powers, POWERS, out, ROOM);
    if (!give(&answer))
        return 1;
    if (fclose(stdout) != 0) { /* what stdio still held is written here, and a full disk shows */
        perror("echo: a write failed");
        return 1;
    }
    return status;
}
