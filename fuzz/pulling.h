/* 02, item 3: what was cleared and dropped, and the refusals 13 and 14 as the last moves have them. */
#ifndef PULLING_H
#define PULLING_H

#include "equations.h"

/* The steps that were judged by their moves: those accepted, then those refused with 13 or 14. */
typedef struct {
    unsigned long long cleared, finger_cleared; /* with a variable other than 0 cleared at a point, and of the finger */
    unsigned long long away;                    /* with a contact dropped away from p */
    unsigned long long at_p[3][3];              /* by the working that dropped the string's contact at p, and the finger's; 0: it was not dropped */
    unsigned long long let_through;             /* whose first moves would have been refused */
    unsigned long long stopped;                 /* refused, whose first moves would have been accepted */
    unsigned long long kept;                    /* refused, with variables that would have been cleared */
} pulling_tally;
extern pulling_tally pulling;

/* Counts a step that was answered with 0, 13 or 14, and whose last working is given. What is wrong with its answer, in words, or NULL. */
const char *pulling_fault(const given_step *step, const equations *last, uint32_t refusal);

#endif
