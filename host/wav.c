/* A 16-bit stereo WAV file: the constant part taken away, each channel scaled by its own loudest sample, and the bytes put in order. */
#include <math.h>
#include <stdio.h>
#include <stdlib.h>
#include "wav.h"

enum { CHANNELS = 2, HEADER = 44, FRAME = 2 * CHANNELS };

static void put(uint8_t *at, int bytes, uint32_t number)
{
    for (int i = 0; i < bytes; i++)
        at[i] = (uint8_t)(number >> 8 * i);
}

static void put_header(uint8_t *file, uint32_t frames, uint32_t rate)
{
    static const char marks[] = "RIFF....WAVEfmt ....................data....";
    for (int i = 0; i < HEADER; i++)
        file[i] = (uint8_t)marks[i];
    put(file + 4, 4, HEADER - 8 + FRAME * frames);
    put(file + 16, 4, 16);
    put(file + 20, 2, 1); /* plain samples */
    put(file + 22, 2, CHANNELS);
    put(file + 24, 4, rate);
    put(file + 28, 4, FRAME * rate);
    put(file + 32, 2, FRAME);
    put(file + 34, 2, 16);
    put(file + 40, 4, FRAME * frames);
}

/* A finger holds the string down by millimetres, which is no sound: what changes slower than at some 70 Hz is taken away. The gain puts the loudest
   sample 1 dB below full scale. */
static void put_channel(uint8_t *at, const float *samples, size_t frames, double *heard)
{
    double loudest = 0;
    for (size_t i = 0; i < frames; i++) {
        heard[i] = i ? 0.99 * heard[i - 1] + samples[CHANNELS * i] - samples[CHANNELS * (i - 1)] : 0;
        loudest = fmax(loudest, fabs(heard[i]));
    }
    double gain = loudest > 0 ? 32767 * pow(10, -1.0 / 20) / loudest : 0;
    for (size_t i = 0; i < frames; i++)
        put(at + FRAME * i, 2, (uint32_t)lrint(gain * heard[i]));
}

int write_wav(const char *path, const float *samples, size_t frames, uint32_t rate)
{
    size_t size = HEADER + FRAME * frames;
    uint8_t *bytes = malloc(size);
    double *heard = malloc(frames * sizeof *heard + 1);
    FILE *file = bytes && heard ? fopen(path, "wb") : NULL;
    int failed = !file;
    if (file) {
        put_header(bytes, (uint32_t)frames, rate);
        for (int channel = 0; channel < CHANNELS; channel++)
            put_channel(bytes + HEADER + 2 * channel, samples + channel, frames, heard);
        failed = fwrite(bytes, 1, size, file) != size;
        failed |= fclose(file) != 0;
    }
    free(bytes);
    free(heard);
    return failed;
}
