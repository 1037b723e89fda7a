/* Forces by which the moves of a step are ties. */
#ifndef TIES_H
#define TIES_H

#include "calls.h"

/* For a voice that is in order: the string's move at the pluck's place a tie, or the finger's, or both, as far as the numbers allow it. */
void draw_tie(const voice *v, int32_t *pluck, int32_t *finger_force);

#endif
