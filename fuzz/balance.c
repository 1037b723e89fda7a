/* 01, 'One step' and 'Energy', with 02's item 3: the residuals, contact variables and energies of one accepted step. */
#include "balance.h"
#include <stdio.h>
#include <string.h>
#include "nearest.h"

balance_tally balanced;
static char wrong[200];

/* An accepted step: the equations of its last working, and its moves at the places 0 to N, which are 0 at both ends. */
typedef struct {
    const made_step *step;
    const equations *e;
    int64_t moves[PLACES], finger_move;
    int at_limit;
    wide rounding_work, rounding_limit;
} account;

static void open_account(account *a, const made_step *step, const equations *last)
{
    const voice_state *before = &step->given.before, *after = &step->after;
    *a = (account){.step = step, .e = last};
    for (size_t i = 1; i < last->N; i++)
        a->moves[i] = (int64_t)after->newer[i - 1] - before->older[i - 1];
    a->finger_move = (int64_t)after->finger.newer - before->finger.older;
}

/* Books the rounding work of an equation; whether its residual keeps its limit. */
static int book_residual(account *a, const char *equation, size_t i, int64_t residual, int64_t limit, int64_t move)
{
    int64_t twice = residual < 0 ? -2 * residual : 2 * residual;
    a->rounding_work += 2 * (wide)residual * move;
    a->rounding_limit += (wide)limit * (move < 0 ? -move : move);
    a->at_limit |= twice == limit;
    if (twice > limit)
        snprintf(wrong, sizeof wrong, "the %s equation at place %zu has the residual %lld, and the limit of twice its size is %lld", equation, i,
                 (long long)residual, (long long)limit);
    return twice <= limit;
}

/* The two equations at p. */
static int book_finger(account *a)
{
    const equations *e = a->e;
    int64_t gg = e->g * e->g, A = e->A[e->p], string_move = a->moves[e->p], finger_move = a->finger_move;
    int64_t first = (A + gg) * string_move - gg * finger_move - e->string_side, second = -gg * string_move + (e->m + gg) * finger_move - e->finger_side;
    return book_residual(a, "string's", e->p, first, A + 2 * gg, string_move) && book_residual(a, "finger's", e->p, second, e->m + 2 * gg, finger_move);
}

static int residuals_kept(account *a)
{
    const equations *e = a->e;
    for (size_t i = 1; i < e->N; i++)
        if (i == e->p ? !book_finger(a) : !book_residual(a, "string's", i, e->A[i] * a->moves[i] - e->c[i], e->A[i], a->moves[i]))
            return 0;
    return 1;
}

static int newer_kept(const account *a)
{
    const voice_state *before = &a->step->given.before, *after = &a->step->after;
    if (!memcmp(after->older, before->newer, (a->e->N - 1) * sizeof(int32_t)) && after->finger.older == before->finger.newer)
        return 1;
    snprintf(wrong, sizeof wrong, "the string or the finger's height that was newer is not the older one now");
    return 0;
}

/* Whether a contact's new variable follows from the old one, cleared, and its change; and whether the contact does not pull. */
static int contact_right(const char *whose, size_t i, int64_t slope, int64_t old, int64_t change, int64_t new)
{
    if (new == old + change && slope * (old + new) >= 0)
        return 1;
    snprintf(wrong, sizeof wrong, "the %s contact variable at place %zu is %lld after %lld: the gradient is %lld, and the change that follows %lld", whose, i,
             (long long)new, (long long)old, (long long)slope, (long long)change);
    return 0;
}

static int contacts_right(const account *a)
{
    const equations *e = a->e;
    const voice_state *after = &a->step->after;
    for (size_t i = 1; i < e->N; i++)
        if (!contact_right("string's", i, e->G[i], e->psi[i], -e->G[i] * a->moves[i], after->contact[i - 1]))
            return 0;
    return contact_right("finger's", e->p, e->g, e->phi, e->g * (a->moves[e->p] - a->finger_move), after->finger.contact);
}

static wide loss(const account *a)
{
    const sv_setup *s = &a->step->given.setup;
    wide squares = 0, rises = 0;
    for (size_t i = 1; i <= a->e->N; i++) {
        int64_t rise = a->moves[i] - a->moves[i - 1];
        squares += a->moves[i] * a->moves[i];
        rises += rise * rise;
    }
    return 2 * (wide)s->plain * squares + (wide)s->viscous * rises + a->e->gone.energy;
}

static wide work(const account *a)
{
    const given_step *given = &a->step->given;
    return 2 * (wide)given->pluck * a->moves[given->setup.pluck_place] + 2 * (wide)given->finger_force * a->finger_move;
}

static int energy_balanced(const account *a)
{
    const voice_state *was = &a->step->given.before, *is = &a->step->after;
    wide before = stored_energy(a->step->given.setup, was->newer, was->older, was->contact, was->finger);
    wide after = stored_energy(a->step->given.setup, is->newer, is->older, is->contact, is->finger);
    wide lost = loss(a), done = work(a), over = after - (before + done - lost + a->rounding_work);
    balanced.lossy += lost != 0;
    balanced.worked += done != 0;
    balanced.loss += lost;
    balanced.work += done;
    if (before >= 0 && after >= 0 && lost >= 0 && over == 0)
        return 1;
    snprintf(wrong, sizeof wrong, "stored energy %.0Lf before and %.0Lf after the step, %.0Lf more than it comes to", (long double)before, (long double)after,
             (long double)over);
    return 0;
}

const char *balance_fault(const made_step *step, const equations *last)
{
    account a;
    open_account(&a, step, last);
    if (!newer_kept(&a) || !residuals_kept(&a) || !contacts_right(&a) || !energy_balanced(&a))
        return wrong;
    const char *unrounded = nearest_fault(last, a.moves, a.finger_move);
    if (unrounded)
        return unrounded;
    balanced.steps++;
    balanced.on_neck += (unsigned)on_neck(last);
    balanced.under_finger += last->g > 0;
    balanced.at_limit += a.at_limit;
    balanced.forced += step->given.pluck != 0 || step->given.finger_force != 0;
    balanced.rounding_work += a.rounding_work;
    balanced.rounding_limit += a.rounding_limit;
    return NULL;
}
