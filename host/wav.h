/* A 16-bit stereo WAV file from the frames of a voice. */
#ifndef WAV_H
#define WAV_H

#include <stddef.h>
#include <stdint.h>

/* Writes frames of two samples, bridge to the left and neck to the right, without their constant part and each channel as loud as 16 bits allow with
   1 dB to spare. 0 if the file is written; otherwise errno says why not. */
int write_wav(const char *path, const float *samples, size_t frames, uint32_t rate);

#endif
