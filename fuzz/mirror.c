/* Two runs of steps, one the mirror of the other: as long as no gradient of the last moves is above 0 in either, each must stay the negative of the other. */
#include "mirror.h"
#include <string.h>
#include "draw.h"
#include "fault.h"
#include "nearest.h"
#include "rules.h"
#include "ties.h"

mirror_tally mirrored;
static lent mirror_first, mirror_second, mirror_contact;

void mirror_open(void)
{
    lent_open(&mirror_first, "first, mirrored", sizeof(int32_t));
    lent_open(&mirror_second, "second, mirrored", sizeof(int32_t));
    lent_open(&mirror_contact, "contact, mirrored", sizeof(int32_t));
}

static void divide(lent *string, int32_t divisor)
{
    int32_t *numbers = lent_numbers(string);
    for (size_t i = 0; i < string->length; i++)
        numbers[i] /= divisor;
    lent_settle(string);
}

static void negate(lent *to, const lent *from)
{
    const int32_t *numbers = lent_numbers(from);
    int32_t *negatives = lent_numbers(to);
    for (size_t i = 0; i < from->length; i++)
        negatives[i] = -numbers[i];
    lent_settle(to);
}

/* Mostly with a neck that no string reaches, a finger whose gradient is 0 or which is close to the string, and small enough to stay in range for a while. */
static size_t draw_apart(voice *v)
{
    size_t points = draw_setup(&v->setup, 0);
    if (!one_in(4))
        v->setup.finger_stiffness = (uint16_t)draw_below(one_in(2) ? 1 : 64);
    draw_neck(v, points, 0);
    int32_t *heights = lent_numbers(v->heights);
    if (!one_in(4))
        for (size_t i = 0; i < points; i++)
            heights[i] = -DISPLACEMENT;
    lent_settle(v->heights);
    draw_state(v, points, 0);
    int32_t divisor = 1 << draw_below(21);
    divide(v->first, divisor);
    divide(v->second, divisor);
    v->finger.newer /= divisor;
    v->finger.older /= divisor;
    return points;
}

/* Contact variables of its own, in range; all else the negative. */
static voice draw_mirror(const voice *v, size_t points)
{
    voice mirror = *v;
    mirror.first = &mirror_first;
    mirror.second = &mirror_second;
    mirror.contact = &mirror_contact;
    draw_state(&mirror, points, 0);
    negate(mirror.first, v->first);
    negate(mirror.second, v->second);
    mirror.turn = v->turn;
    mirror.finger.newer = -v->finger.newer;
    mirror.finger.older = -v->finger.older;
    return mirror;
}

/* Whether a contact is left in the last working of a step; counts in `dropped` one whose contacts were all dropped. */
static int touches(const voice *v, int32_t pluck, int32_t finger_force, int *dropped)
{
    equations e;
    given_step step = step_given(v, pluck, finger_force);
    work_out(&e, &step);
    *dropped += any_dropped(&e);
    return any_contact(&e);
}

static void same_negated(const char *what, const lent *buffer, const lent *mirror)
{
    const int32_t *numbers = lent_numbers(buffer), *negatives = lent_numbers(mirror);
    for (size_t i = 0; i < buffer->length; i++)
        if (negatives[i] != -numbers[i])
            fault("%s at place %zu is %d, and %d in the mirrored run", what, i + 1, numbers[i], negatives[i]);
}

static void stays_mirrored(const voice *v, const voice *mirror)
{
    same_negated("the first string", v->first, mirror->first);
    same_negated("the second string", v->second, mirror->second);
    if (mirror->turn != v->turn || mirror->finger.newer != -v->finger.newer || mirror->finger.older != -v->finger.older)
        fault("turn and finger are %u, %d, %d, and %u, %d, %d in the mirrored run", v->turn, v->finger.newer, v->finger.older, mirror->turn,
              mirror->finger.newer, mirror->finger.older);
}

/* Forces, ties or not, and out of range at times; but the least of 32 bits has no negative. */
static void draw_both_forces(const voice *v, uint32_t greatest, int32_t *pluck, int32_t *finger_force)
{
    unsigned changes = one_in(16) ? FORCES : 0, of_pluck = one_in(2) ? changes : 0;
    *pluck = draw_force(&v->setup, greatest, of_pluck);
    *finger_force = draw_force(&v->setup, greatest, changes & ~of_pluck);
    if (!changes && one_in(3))
        draw_tie(v, pluck, finger_force);
    *pluck = *pluck < -INT32_MAX ? -INT32_MAX : *pluck;
    *finger_force = *finger_force < -INT32_MAX ? -INT32_MAX : *finger_force;
}

static void count(const voice *v, uint32_t refusal, unsigned long long new_ties, int dropped)
{
    size_t bytes = v->first->length * sizeof(int32_t);
    int moved = refusal == 0 && (v->finger.newer != v->finger.older || memcmp(lent_numbers(v->first), lent_numbers(v->second), bytes));
    mirrored.moved += (unsigned)moved;
    mirrored.tied += moved && new_ties > 0;
    mirrored.dropped += moved && dropped > 0;
    mirrored.refused += refusal != 0;
}

void mirrored_runs(voice *v)
{
    size_t points = draw_apart(v);
    voice mirror = draw_mirror(v, points);
    uint32_t greatest = (uint32_t)FORCE >> draw_below(25), refusal = 0;
    mirrored.pairs++;
    for (uint32_t steps = 1 + draw_below(one_in(8) ? 200 : 24); steps > 0 && !(refusal >= 13 && one_in(3)); steps--) {
        int32_t pluck, finger_force;
        int dropped = 0;
        sv_frame frame;
        unsigned long long ties_before = ties_met;
        draw_both_forces(v, greatest, &pluck, &finger_force);
        if (touches(v, pluck, finger_force, &dropped) || touches(&mirror, -pluck, -finger_force, &dropped))
            return;
        refusal = call_step(v, pluck, finger_force, &frame);
        if (call_step(&mirror, -pluck, -finger_force, &frame) != refusal)
            fault("refused otherwise than %u, the refusal of the step that it mirrors", refusal);
        stays_mirrored(v, &mirror);
        count(v, refusal, ties_met - ties_before, dropped);
    }
}
