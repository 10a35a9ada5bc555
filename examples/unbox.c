/* Reads a capture of records from standard input, as box.c writes one, and writes the samples that its calls delivered. A record that is
 * refused is named on standard error by its refusal and its byte place, behind all that came before it, and the status is 1, as it is where
 * a read or a write fails. */
#include "aspeyruni.h"
#include <stdio.h>
#include <string.h>

int main(void)
{
    static uint8_t bytes[ASPEYRUNI_RECORD_MAX]; /* any record fits, so one that is short here is short in the capture */
    static struct aspeyruni_record_found found;
    size_t held = 0;
    unsigned long long place = 0;

    for (;;) {
        held += fread(bytes + held, 1, sizeof bytes - held, stdin);
        if (ferror(stdin)) {
            perror("unbox: a read failed");
            return 1;
        }
        if (held == 0) /* the capture ends between two records */
            break;
        aspeyruni_record_read(&found, bytes, held);
        if (found.refusal != ASPEYRUNI_ACCEPTED) {
            fprintf(stderr, "unbox: refusal %u at byte %llu\n", (unsigned)found.refusal, place);
            return 1;
        }
        if (found.kind == ASPEYRUNI_RECORD_OUTPUT && fwrite(bytes + found.payload_at, 1, found.payload_len, stdout) != found.payload_len) {
            perror("unbox: a write failed");
            return 1;
        }
        held -= found.size;
        memmove(bytes, bytes + found.size, held);
        place += found.size;
    }
    if (fclose(stdout) != 0) {
        perror("unbox: a write failed");
        return 1;
    }
    return 0;
}
