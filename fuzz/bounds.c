/* Bounds of the refusals 13 and 14, found by halving. */
#include "bounds.h"
#include "draw.h"
#include "rules.h"

unsigned long long bounds_met[REFUSALS];

/* A number of a step that is turned, between the end of its range and the same below 0. */
typedef struct {
    int32_t *number, end;
} turned;

/* The step: of a voice, by two forces. */
typedef struct {
    voice *v;
    int32_t pluck, finger_force;
} step;

/* A point, pressed on the neck if one is. */
static uint32_t choose_point(const voice *v)
{
    const int32_t *heights = lent_numbers(v->heights), *newer = lent_numbers(v->turn == 0 ? v->first : v->second);
    uint32_t points = v->setup.segments - 1, start = draw_below(points);
    for (uint32_t i = 0; i < points; i++)
        if (heights[(start + i) % points] > newer[(start + i) % points])
            return (start + i) % points;
    return start;
}

/* Half of the time a contact variable, which comes to the bound of 14 in single units. Its point is made to move fast, since a slow one keeps away from it. */
static turned choose_turned(step *s)
{
    voice *v = s->v;
    uint32_t point = choose_point(v), which = draw_below(12);
    int32_t *first = lent_numbers(v->first), *second = lent_numbers(v->second), *contact = lent_numbers(v->contact);
    (v->turn == 0 ? second : first)[point] = draw_between(-DISPLACEMENT, DISPLACEMENT);
    turned numbers[] = {{&s->pluck, FORCE}, {&s->finger_force, FORCE}, {first + point, DISPLACEMENT}, {second + point, DISPLACEMENT},
                        {&v->finger.newer, DISPLACEMENT}, {&v->finger.older, DISPLACEMENT}, {&v->finger.contact, CONTACT}, {contact + point, CONTACT}};
    return numbers[which < 8 ? which : 6 + which % 2];
}

static uint32_t answer_at(const step *s, turned t, int64_t number)
{
    *t.number = (int32_t)number;
    return call_step_on_copy(s->v, s->pluck, s->finger_force);
}

void meet_bound(voice *v, int32_t pluck, int32_t finger_force)
{
    step s = {v, pluck, finger_force};
    turned t = choose_turned(&s);
    int64_t near = *t.number, far = one_in(2) ? t.end : -t.end;
    uint32_t at_near = answer_at(&s, t, near), at_far = answer_at(&s, t, far);
    if (at_near == at_far)
        return;
    while (far - near > 1 || near - far > 1) {
        int64_t middle = near + (far - near) / 2;
        uint32_t at_middle = answer_at(&s, t, middle);
        if (at_middle == at_near)
            near = middle;
        else {
            far = middle;
            at_far = at_middle;
        }
    }
    bounds_met[at_near > at_far ? at_near : at_far]++;
}
