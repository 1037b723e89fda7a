/* Forces by which the moves of a step are ties: the moves are chosen in halves, and the forces are what the equations ask for then. */
#include "ties.h"
#include "draw.h"
#include "rules.h"

/* A number of halves near a fraction: odd ones twice in three draws. */
static int64_t halves_near(fraction exact)
{
    int64_t whole = (int64_t)(exact.numerator / exact.denominator) + draw_between(-2, 2);
    return 2 * whole + !one_in(3);
}

void draw_tie(const voice *v, int32_t *pluck, int32_t *finger_force)
{
    equations e;
    given_step unforced = step_given(v, 0, 0);
    work_out(&e, &unforced);
    size_t place = v->setup.pluck_place;
    int64_t gg = e.g * e.g, string = halves_near(exact_move(&e, place)), finger = halves_near(exact_finger_move(&e));
    if (place == e.p) {
        *pluck = within(((e.A[place] + gg) * string - gg * finger) / 2 - e.string_side, FORCE);
        *finger_force = within((-gg * string + (e.m + gg) * finger) / 2 - e.finger_side, FORCE);
    } else {
        *pluck = within(e.A[place] * string / 2 - e.c[place], FORCE);
        *finger_force = e.g > 0 ? 0 : within(e.m * finger / 2 - e.finger_side, FORCE);
    }
}
