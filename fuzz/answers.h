/* Answers of the library beside those that are expected of it: a fault unless they are the same in every bit. */
#ifndef ANSWERS_H
#define ANSWERS_H

#include "../include/string_voice.h"

enum { CHECK_SETUP, BEND, SLIDE, LAY_NECK, FRESH_START, STEP, STEP_BOOKED, BEND_BOOKED, PLAY_BLOCK, NEWEST, READ_PLACE, FUNCTIONS, REFUSALS = 18 };

typedef struct {
    const char *name;
    unsigned refusals;                      /* the numbers that it can give, as bits */
    unsigned long long answered[REFUSALS];  /* calls by their refusal; 0 is accepted */
} function_tally;
extern function_tally functions[FUNCTIONS];

void begin(int function, sv_setup setup); /* a call of that function */
void same_refusal(uint32_t answered, uint32_t expected); /* every call is counted by its refusal, once that is found right */

void same(const char *what, long long answered, long long expected);
void same_bits(const char *what, const void *answered, const void *expected, size_t bytes);
void same_finger(sv_finger answered, sv_finger expected);
void same_frame(sv_frame answered, sv_frame expected);
void same_setup(sv_setup answered, sv_setup expected);
void same_book(sv_book answered, sv_book expected);

#endif
