/* How much stack each call takes: it is run on a thread whose stack was painted, and what is painted no longer was used. The first of the
 * calls does nothing: what it takes is the thread's own, and every other row has that in it too. */
#define _GNU_SOURCE
#include "aspeyruni.h"
#include <pthread.h>
#include <stdio.h>
#include <stdlib.h>
#include <string.h>

enum { PARTITIONS = 32, NUMBERS = 514 * PARTITIONS, POWERS = 257 * PARTITIONS };
enum { TAPS = 8160, PAIRS = 4096, STACK = 1 << 20, PAINT = 0xA5 };

static double shadow[NUMBERS], output[NUMBERS], spectra[NUMBERS], powers[POWERS], spectrum[514];
static float weights[TAPS], history[TAPS], near_end[PAIRS], far_end[PAIRS], out[PAIRS + 255], samples[512];
static struct aspeyruni_tau_started tau_started;
static struct aspeyruni_tau_answer tau_answer;
static struct aspeyruni_rho_started rho_started;
static struct aspeyruni_rho_answer rho_answer;

static void nothing(void) {}
static void narrow(void) { out[0] = aspeyruni_narrow(shadow[0]); }
static void narrow_list(void) { aspeyruni_narrow_list(spectrum, 512, samples, 512); }
static void forward(void) { aspeyruni_forward(samples, 512, spectrum, 514); }
static void inverse(void) { aspeyruni_inverse(spectrum, 514, samples, 512); }
static void tau_create(void)
{
    aspeyruni_tau_create(&tau_started, PARTITIONS, true, shadow, NUMBERS, output, NUMBERS, spectra, NUMBERS, powers, POWERS);
    tau_answer.state = tau_started.state;
}
static void tau_process(void)
{
    aspeyruni_tau_process(&tau_answer, tau_answer.state, shadow, NUMBERS, output, NUMBERS, spectra, NUMBERS, powers, POWERS, near_end,
                          PAIRS - 1, far_end, PAIRS - 1, out, sizeof out / sizeof *out);
}
static void tau_flush(void)
{
    aspeyruni_tau_flush(&tau_answer, tau_answer.state, shadow, NUMBERS, output, NUMBERS, spectra, NUMBERS, powers, POWERS, out,
                        sizeof out / sizeof *out);
}
static void tau_reset(void)
{
    aspeyruni_tau_reset(&tau_started, tau_answer.state, shadow, NUMBERS, output, NUMBERS, spectra, NUMBERS, powers, POWERS);
}
static void rho_create(void)
{
    aspeyruni_rho_create(&rho_started, 48000, 170, weights, TAPS, history, TAPS);
    rho_answer.state = rho_started.state;
}
static void rho_process(void)
{
    aspeyruni_rho_process(&rho_answer, rho_answer.state, weights, TAPS, history, TAPS, near_end, PAIRS, far_end, PAIRS, out, PAIRS);
}
static void rho_flush(void) { aspeyruni_rho_flush(&rho_answer, rho_answer.state, weights, TAPS, history, TAPS); }
static void rho_reset(void) { aspeyruni_rho_reset(&rho_started, rho_answer.state, weights, TAPS, history, TAPS); }

static void (*call)(void);
static void *runs(void *unused)
{
    call();
    return unused;
}

static size_t used(void (*what)(void), unsigned char *stack)
{
    pthread_attr_t attributes;
    pthread_t thread;
    size_t free_bytes = 0;

    memset(stack, PAINT, STACK);
    call = what;
    if (pthread_attr_init(&attributes) || pthread_attr_setstack(&attributes, stack, STACK) ||
        pthread_create(&thread, &attributes, runs, NULL) || pthread_join(thread, NULL))
        exit(1);
    while (stack[free_bytes] == PAINT)
        free_bytes++;
    return STACK - free_bytes;
}

int main(void)
{
    static const struct {
        const char *name;
        void (*what)(void);
    } calls[] = {{"none", nothing},           {"narrow", narrow},           {"narrow_list", narrow_list},
                 {"forward", forward},       {"inverse", inverse},
                 {"tau create", tau_create}, {"tau process", tau_process}, {"tau flush", tau_flush}, {"tau reset", tau_reset},
                 {"rho create", rho_create}, {"rho process", rho_process}, {"rho flush", rho_flush}, {"rho reset", rho_reset}};
    unsigned char *stack = aligned_alloc(4096, STACK);
    unsigned seed = 1;

    for (size_t i = 0; i < PAIRS; i++) {
        seed = seed * 1664525 + 1013904223;
        far_end[i] = (float)(seed >> 8) / (1 << 24) - 0.5f;
        near_end[i] = i < 40 ? 0.0f : 0.5f * far_end[i - 40];
    }
    used(nothing, stack); /* so that the first row has nothing in it that a process does once */
    puts("| call | bytes of stack |\n|---|---|");
    for (size_t i = 0; i < sizeof calls / sizeof *calls; i++)
        printf("| %s | %zu |\n", calls[i].name, used(calls[i].what, stack));
    if (tau_answer.refusal || rho_answer.refusal)
        return 1;
    return 0;
}
