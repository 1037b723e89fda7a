/* The calls of the library, one function for each: each is made on the library's pages and by its oracle on the oracle's, and both must agree in every bit. */
#ifndef CALLS_H
#define CALLS_H

#include "answers.h"
#include "arguments.h"
#include "equations.h"

/* Blocks that were begun with more samples than forces. */
typedef struct {
    unsigned long long odd, even; /* by how many samples more */
    unsigned long long stopped;   /* those of both that a step's refusal stopped */
} surplus_tally;
extern surplus_tally surpluses;

/* Bends and slides that were accepted, though the value they replaced would have been refused. */
typedef struct {
    unsigned long long bends, slides;
} mended_tally;
extern mended_tally mended;

void calls_open(void);
void voice_agrees(const voice *v);    /* a fault unless both sides hold the same in all five buffers */
voice copied(const voice *v);         /* the same voice with strings and contact variables of its own */
voice_state state_of(const voice *v); /* the numbers in the library's pages, for a turn and lengths that are in order */
given_step step_given(const voice *v, int32_t pluck, int32_t finger_force); /* for a voice that is in order; its numbers are those in the library's pages */

uint32_t call_check_setup(sv_setup setup);
uint32_t call_lay_neck(sv_setup setup, const neck_plan *plan, lent *heights, lent *stiffness);
void call_newest(uint32_t turn);
uint32_t call_read_place(const voice *v, uint32_t place);
uint32_t call_step_on_copy(const voice *v, int32_t pluck, int32_t finger_force); /* the refusal; the voice stays as it is */
uint32_t refusal_by_oracle(const voice *v, int32_t pluck, int32_t finger_force); /* what its oracle alone would give for a step; the library is not called */

/* These go on with the voice: its setup, its turn and finger, or its book become those that the call answers. They answer the refusal. */
uint32_t call_bend(voice *v, uint32_t tension);
uint32_t call_slide(voice *v, uint32_t place);
uint32_t call_fresh_start(voice *v, int32_t height, int32_t older_height);
uint32_t call_step(voice *v, int32_t pluck, int32_t finger_force, sv_frame *frame);
uint32_t call_play_block(voice *v, lent *forces, lent *samples);

#endif
