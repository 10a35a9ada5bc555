/* pcm16 to16 <f32s >int16s, pcm16 from16 <int16s >f32s: samples from one form to the other, least byte first in both, for the check of
 * examples/frames.c. It rounds, clips and scales as that host does. An unfinished last sample is dropped; where a read or a write fails it
 * says so, and its status is 1. */
#include <math.h>
#include <stdint.h>
#include <stdio.h>
#include <string.h>

/* To the nearest of the 65,536 steps, a half to the even one; what is beyond full scale is clipped to the last step. A NaN gives 0. */
static int step_of(float sample)
{
    double scaled = 32768.0 * (double)sample;

    if (scaled >= 32767.0)
        return 32767;
    if (scaled <= -32768.0)
        return -32768;
    return isnan(scaled) ? 0 : (int)lrint(scaled);
}

/* The whole number of so many bytes, the least first. */
static uint32_t bits_of(const unsigned char *bytes, size_t size)
{
    uint32_t bits = 0;

    for (size_t i = 0; i < size; i++)
        bits |= (uint32_t)bytes[i] << 8 * i;
    return bits;
}

static uint32_t to_16(uint32_t bits)
{
    float sample;

    memcpy(&sample, &bits, sizeof sample);
    return (uint32_t)step_of(sample);
}

static uint32_t from_16(uint32_t bits)
{
    int step = (int)bits;
    float sample = (float)(step < 32768 ? step : step - 65536) / 32768.0f;

    memcpy(&bits, &sample, sizeof bits);
    return bits;
}

static int convert(size_t size_in, uint32_t (*turned)(uint32_t), size_t size_out)
{
    unsigned char bytes[4];

    while (fread(bytes, size_in, 1, stdin) == 1) {
        uint32_t bits = turned(bits_of(bytes, size_in));

        for (size_t i = 0; i < size_out; i++)
            bytes[i] = (unsigned char)(bits >> 8 * i & 255);
        if (fwrite(bytes, size_out, 1, stdout) != 1)
            break;
    }
    if (ferror(stdin) || ferror(stdout) || fclose(stdout) != 0) {
        perror("pcm16: a read or a write failed");
        return 1;
    }
    return 0;
}

int main(int count, char **words)
{
    if (count == 2 && strcmp(words[1], "to16") == 0)
        return convert(4, to_16, 2);
    if (count == 2 && strcmp(words[1], "from16") == 0)
        return convert(2, from_16, 4);
    fputs("pcm16 to16|from16 <in >out\n", stderr);
    return 2;
}
