/* The voice in double precision, bench/double.c. Its numbers have the units of the whole-number voice; setup, forces and samples are the same. */
#ifndef DOUBLE_VOICE_H
#define DOUBLE_VOICE_H

#include "../include/string_voice.h"

typedef struct {
    double newer, older, contact;
} double_finger;

typedef struct {
    uint32_t turn;
    double_finger finger;
    sv_frame frame;
} double_stepped;

typedef struct {
    uint32_t turn;
    double_finger finger;
} double_played;

typedef double_stepped double_step_function(sv_setup, const double *heights, const double *stiffness, double *first, double *second, double *contact,
                                            uint32_t turn, double_finger, int32_t pluck, int32_t finger_force);
typedef double_played double_block_function(sv_setup, const double *heights, const double *stiffness, double *first, double *second, double *contact,
                                            uint32_t turn, double_finger, const int32_t *forces, size_t steps, float *samples);

#endif
