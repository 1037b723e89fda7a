/* Bounds of the refusals 13 and 14, met to the unit. */
#ifndef BOUNDS_H
#define BOUNDS_H

#include "calls.h"

extern unsigned long long bounds_met[REFUSALS]; /* by the refusal, the greater one where both sides are refused */

/* From a voice that is in order: turns one number of it, or one of the forces, until two numbers next to each other are answered otherwise. */
void meet_bound(voice *v, int32_t pluck, int32_t finger_force);

#endif
