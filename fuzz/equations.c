/* 01, 'One step', with 02's item 3: the gradients and equations of one step. */
#include "equations.h"

/* Over the places 0 to N, where all strings are 0 at both ends. */
typedef struct {
    size_t N;
    int64_t at[PLACES];
} string;

static int64_t D1(const string *s, size_t i) { return i == 0 || i == s->N ? 0 : s->at[i - 1] - 2 * s->at[i] + s->at[i + 1]; }

static int64_t D2(const string *s, size_t i) { return D1(s, i - 1) - 2 * D1(s, i) + D1(s, i + 1); }

/* The greatest whole number whose square is at most 64q, for q up to 1023. */
static int64_t root(int64_t q)
{
    static int64_t roots[1024];
    if (roots[1] == 0)
        for (int64_t entry = 0; entry < 1024; entry++)
            for (int64_t r = 0; r * r <= 64 * entry; r++)
                roots[entry] = r;
    return roots[q];
}

static int64_t gradient(int64_t stiffness, int64_t depth)
{
    if (depth <= 0)
        return 0;
    int64_t q = stiffness * depth / 1024;
    return root(q < 1023 ? q : 1023);
}

/* The variable with which a contact goes into the step: 0 where the depth is at most 0. Books what is let go. */
static int64_t cleared(int64_t depth, int64_t variable, unsigned *count, wide *energy)
{
    if (depth > 0)
        return variable;
    *count += variable != 0;
    *energy += 2 * (wide)variable * variable;
    return 0;
}

static void take_point(equations *e, const given_step *step, const string *u, const string *a, size_t i)
{
    const sv_setup *s = &step->setup;
    int64_t depth = step->heights[i - 1] - u->at[i], force = i == s->pluck_place ? step->pluck : 0;
    e->psi[i] = cleared(depth, step->before.contact[i - 1], &e->gone.cleared, &e->gone.energy);
    e->G[i] = gradient(step->stiffness[i - 1], depth);
    e->free_c[i] = 8192 * a->at[i] + (int64_t)s->tension * D1(u, i) - (int64_t)s->stiffness * D2(u, i) + (int64_t)s->viscous * D1(a, i) + force;
}

static void take_finger(equations *e, const given_step *step)
{
    const sv_finger *finger = &step->before.finger;
    int64_t depth = (int64_t)step->before.newer[e->p - 1] - finger->newer;
    e->m = step->setup.finger_mass;
    e->phi = cleared(depth, finger->contact, &e->gone.finger_cleared, &e->gone.energy);
    e->g = gradient(step->setup.finger_stiffness, depth);
    e->free_side = 2 * e->m * ((int64_t)finger->newer - finger->older) + step->finger_force;
}

/* The equations with the gradients that are left. */
static void form(equations *e, const given_step *step)
{
    for (size_t i = 1; i < e->N; i++) {
        e->A[i] = 4096 + (int64_t)step->setup.plain + e->G[i] * e->G[i];
        e->c[i] = e->free_c[i] + 2 * e->G[i] * e->psi[i];
    }
    e->string_side = e->c[e->p] - 2 * e->g * e->phi;
    e->finger_side = e->free_side + 2 * e->g * e->phi;
}

/* Whether old and new variable of a contact sum below 0, where the new one is the old one and a change. */
static int pulls(int64_t slope, int64_t old, int64_t change) { return slope > 0 && old + (old + change) < 0; }

/* Puts 0 for the gradient of every contact that pulls at the moves of this working; whether there was one. */
static int drop(equations *e, unsigned working)
{
    int64_t at_p = rounded(exact_move(e, e->p)), of_finger = rounded(exact_finger_move(e));
    unsigned away = 0;
    for (size_t i = 1; i < e->N; i++)
        if (i != e->p && e->G[i] > 0 && pulls(e->G[i], e->psi[i], -e->G[i] * rounded(exact_move(e, i)))) {
            e->G[i] = 0;
            away++;
        }
    int string = pulls(e->G[e->p], e->psi[e->p], -e->G[e->p] * at_p), finger = pulls(e->g, e->phi, e->g * (at_p - of_finger));
    e->gone.away += away;
    if (string) {
        e->G[e->p] = 0;
        e->gone.string_at_p = working;
    }
    if (finger) {
        e->g = 0;
        e->gone.finger = working;
    }
    return away > 0 || string || finger;
}

void work_out_first(equations *e, const given_step *step)
{
    string newer = {.N = step->setup.segments}, change = {.N = step->setup.segments};
    *e = (equations){.N = step->setup.segments, .p = step->setup.finger_place};
    for (size_t i = 1; i < e->N; i++) {
        newer.at[i] = step->before.newer[i - 1];
        change.at[i] = newer.at[i] - step->before.older[i - 1];
    }
    for (size_t i = 1; i < e->N; i++)
        take_point(e, step, &newer, &change, i);
    take_finger(e, step);
    form(e, step);
}

void work_out(equations *e, const given_step *step)
{
    work_out_first(e, step);
    for (unsigned working = 1; drop(e, working); working++)
        form(e, step);
}

int on_neck(const equations *e)
{
    int any = 0;
    for (size_t i = 1; i < e->N; i++)
        any |= e->G[i] > 0;
    return any;
}

int any_contact(const equations *e) { return e->g > 0 || on_neck(e); }

int any_dropped(const equations *e) { return e->gone.away > 0 || e->gone.string_at_p > 0 || e->gone.finger > 0; }

/* The determinant of both equations at p. */
static wide determinant(const equations *e)
{
    wide gg = e->g * e->g;
    return (e->A[e->p] + gg) * (e->m + gg) - gg * gg;
}

fraction exact_move(const equations *e, size_t i)
{
    wide gg = e->g * e->g;
    if (i != e->p)
        return (fraction){e->c[i], e->A[i]};
    return (fraction){e->string_side * (e->m + gg) + gg * e->finger_side, determinant(e)};
}

fraction exact_finger_move(const equations *e)
{
    wide gg = e->g * e->g;
    return (fraction){(e->A[e->p] + gg) * e->finger_side + gg * e->string_side, determinant(e)};
}

int64_t rounded(fraction exact)
{
    wide below = exact.numerator / exact.denominator - (exact.numerator % exact.denominator < 0);
    wide twice_rest = 2 * (exact.numerator - below * exact.denominator);
    return (int64_t)(below + (twice_rest > exact.denominator || (twice_rest == exact.denominator && below % 2 != 0)));
}
