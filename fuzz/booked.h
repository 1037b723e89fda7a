/* 02, item 6: booked steps and bends, each beside its oracle; a booked step also beside the same step without a book. */
#ifndef BOOKED_H
#define BOOKED_H

#include "calls.h"

/* Booked steps and bends; those that were accepted, but for the last. */
typedef struct {
    unsigned long long negative, at_end;        /* with a column below 0, and with one at an end of its range */
    unsigned long long raised, lowered;         /* with a high word raised by a carry, and lowered by a borrow */
    unsigned long long left_range;              /* with a column out of its range after it */
    unsigned long long long_stored, long_work;  /* with a stored energy, and a work, of more than a signed word */
    unsigned long long last_step;               /* steps that brought the count to its largest */
    unsigned long long cleared, finger_cleared; /* steps with a variable other than 0 cleared at a point, and of the finger */
    unsigned long long mended;                  /* bends whose old tension would have been refused */
    unsigned long long next_to_end;             /* refused with 17, and no column is out of its range by more than 1 */
} booking_tally;
extern booking_tally booking;

/* They go on with the voice, its book among it, and answer the refusal. */
uint32_t call_step_booked(voice *v, int32_t pluck, int32_t finger_force);
uint32_t call_bend_booked(voice *v, uint32_t tension);

#endif
