/* 01, 'One step' and 'Energy', with 02's item 3, checked of what an accepted step did: moves are read off the states before and after it, all else is
   worked out anew. */
#ifndef BALANCE_H
#define BALANCE_H

#include "equations.h"

typedef struct {
    given_step given;
    voice_state after;
} made_step;

/* What the steps checked so far had in them. */
typedef struct {
    unsigned long long steps;        /* checked */
    unsigned long long on_neck;      /* with a gradient above 0 at a point, in the last working */
    unsigned long long under_finger; /* with the finger's gradient above 0, in the last working */
    unsigned long long at_limit;     /* with a doubled residual as large as its limit, as after a tie */
    unsigned long long lossy;        /* with a loss other than 0 */
    unsigned long long worked;       /* with a work other than 0 */
    unsigned long long forced;       /* with a force other than 0 */
    wide work, loss, rounding_work;  /* of all of them */
    wide rounding_limit;             /* of all of them, each limit times the size of its move */
} balance_tally;
extern balance_tally balanced;

/* What is wrong with the step, whose last working is given, in words, or NULL. Checked: what was newer is older now, residual limits, contact variables,
   that no contact pulls, the energy equation, that no stored energy or loss is negative, and that each move is nearest. */
const char *balance_fault(const made_step *step, const equations *last);

#endif
