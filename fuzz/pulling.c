/* 02, item 3: what was cleared and dropped, and the refusals 13 and 14 as the last moves have them. */
#include "pulling.h"
#include <stdio.h>
#include "rules.h"

pulling_tally pulling;
static char wrong[100];

static int beyond(int64_t number, int64_t end) { return number < -end || number > end; }

/* 13 or 14 by the moves of a working; 0 if neither. */
static uint32_t judged(const given_step *step, const equations *e)
{
    int64_t finger_move = rounded(exact_finger_move(e)), at_p = rounded(exact_move(e, e->p));
    int string_out = beyond(step->before.finger.older + finger_move, DISPLACEMENT), contact_out = beyond(e->phi + e->g * (at_p - finger_move), CONTACT);
    for (size_t i = 1; i < e->N; i++) {
        int64_t move = i == e->p ? at_p : rounded(exact_move(e, i));
        string_out |= beyond(step->before.older[i - 1] + move, DISPLACEMENT);
        contact_out |= beyond(e->psi[i] - e->G[i] * move, CONTACT);
    }
    return string_out ? 13 : contact_out ? 14 : 0;
}

static void count(const equations *last, uint32_t refusal)
{
    const let_go *gone = &last->gone;
    int accepted = refusal == 0;
    pulling.cleared += accepted && gone->cleared > 0;
    pulling.finger_cleared += accepted && gone->finger_cleared > 0;
    pulling.away += accepted && gone->away > 0;
    pulling.at_p[gone->string_at_p][gone->finger] += (unsigned)accepted;
    pulling.kept += !accepted && gone->cleared + gone->finger_cleared > 0;
}

const char *pulling_fault(const given_step *step, const equations *last, uint32_t refusal)
{
    uint32_t of_last = judged(step, last);
    equations first;
    count(last, refusal);
    if (any_dropped(last)) {
        work_out_first(&first, step);
        uint32_t of_first = judged(step, &first);
        pulling.let_through += of_first != 0 && of_last == 0;
        pulling.stopped += of_first == 0 && of_last != 0;
    }
    if (of_last == refusal)
        return NULL;
    snprintf(wrong, sizeof wrong, "refusal %u, where the last moves ask for %u", refusal, of_last);
    return wrong;
}
