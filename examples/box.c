/* A host that records its own calls while it runs: `box CALL.pairs [CALL.pairs ..] >capture`. Each file is one phone call, pairs as echo.c
 * takes them, and they go through TauCanceller with four partitions and suppression, 512 in a call, which is what a record holds. Each call
 * of the library is a record: pairs, and then the samples that they delivered; at the end of a phone call a flush, and what that delivered;
 * between two phone calls a reset. On a little-endian machine the capture of one file is what the program `pack` writes. Where a read, a
 * write or a call fails it says so on standard error, and its status is 1; without a file it is 2. */
#include "aspeyruni.h"
#include <errno.h>
#include <stdio.h>
#include <string.h>

enum { PARTITIONS = 4, NUMBERS = ASPEYRUNI_TAU_NUMBERS(PARTITIONS), POWERS = ASPEYRUNI_TAU_POWERS(PARTITIONS) };
enum { PAIR = 2 * sizeof(float), PAIRS = ASPEYRUNI_RECORD_MAX_PAYLOAD / PAIR, ROOM = ASPEYRUNI_TAU_ROOM(PAIRS) };

static double shadow[NUMBERS], output[NUMBERS], spectra[NUMBERS], powers[POWERS];
static struct aspeyruni_tau_started started;
static struct aspeyruni_tau_answer answer; /* of the last call, and in it the engine's state */
static uint8_t pairs[ASPEYRUNI_RECORD_MAX_PAYLOAD];
static float near_end[PAIRS], far_end[PAIRS], out[ROOM];

static bool is_accepted(uint32_t refusal)
{
    if (refusal != ASPEYRUNI_ACCEPTED)
        fprintf(stderr, "box: refusal %u\n", (unsigned)refusal);
    return refusal == ASPEYRUNI_ACCEPTED;
}

static bool put(uint32_t kind, const void *payload, size_t len)
{
    static uint8_t record[ASPEYRUNI_RECORD_MAX];
    struct aspeyruni_record_written put = aspeyruni_record_write(kind, payload, len, record, sizeof record);

    if (!is_accepted(put.refusal))
        return false;
    if (fwrite(record, 1, put.written, stdout) != put.written) {
        perror("box: a write failed");
        return false;
    }
    return true;
}

/* What the last call delivered, which may be nothing: a call has its output behind it in any case. */
static bool put_output(void)
{
    return is_accepted(answer.refusal) && put(ASPEYRUNI_RECORD_OUTPUT, out, answer.delivered * sizeof *out);
}

/* The pairs are recorded as they came, and before the call. */
static bool process(size_t count)
{
    for (size_t i = 0; i < count; i++) {
        memcpy(&near_end[i], pairs + PAIR * i, sizeof *near_end);
        memcpy(&far_end[i], pairs + PAIR * i + sizeof *near_end, sizeof *far_end);
    }
    if (!put(ASPEYRUNI_RECORD_PAIRS, pairs, PAIR * count))
        return false;
    aspeyruni_tau_process(&answer, answer.state, shadow, NUMBERS, output, NUMBERS, spectra, NUMBERS, powers, POWERS, near_end, count,
                          far_end, count, out, ROOM);
    return put_output();
}

static bool flush(void)
{
    if (!put(ASPEYRUNI_RECORD_FLUSH, NULL, 0))
        return false;
    aspeyruni_tau_flush(&answer, answer.state, shadow, NUMBERS, output, NUMBERS, spectra, NUMBERS, powers, POWERS, out, ROOM);
    return put_output();
}

/* The next phone call is from another room, maybe. A reset delivers nothing, so no output is behind it. */
static bool reset(void)
{
    if (!put(ASPEYRUNI_RECORD_RESET, NULL, 0))
        return false;
    aspeyruni_tau_reset(&started, answer.state, shadow, NUMBERS, output, NUMBERS, spectra, NUMBERS, powers, POWERS);
    answer.state = started.state;
    return is_accepted(started.refusal);
}

/* After a failed read what was read is still recorded, and flushed. */
static bool phone_call(const char *name)
{
    FILE *file = fopen(name, "rb");
    bool is_recorded, is_read;
    size_t count;

    if (file == NULL) {
        fprintf(stderr, "box: %s: %s\n", name, strerror(errno));
        return false;
    }
    do {
        count = fread(pairs, PAIR, PAIRS, file);
        is_recorded = count == 0 || process(count);
    } while (is_recorded && count == PAIRS);
    is_read = !ferror(file);
    if (!is_read)
        fprintf(stderr, "box: %s: a read failed: %s\n", name, strerror(errno));
    fclose(file);
    return is_recorded && flush() && is_read;
}

int main(int argc, char **argv)
{
    if (argc < 2) {
        fputs("box CALL.pairs [CALL.pairs ..] >capture\n", stderr);
        return 2;
    }
    aspeyruni_tau_create(&started, PARTITIONS, true, shadow, NUMBERS, output, NUMBERS, spectra, NUMBERS, powers, POWERS);
    if (!is_accepted(started.refusal))
        return 1;
    answer.state = started.state;
    for (int i = 1; i < argc; i++)
        if ((i > 1 && !reset()) || !phone_call(argv[i]))
            return 1;
    if (fclose(stdout) != 0) { /* what stdio still held is written here, and a full disk shows */
        perror("box: a write failed");
        return 1;
    }
    return 0;
}
