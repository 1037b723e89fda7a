/* 01, 'Energy', with 02's items 5 and 6: the energy of a whole list of calls, and its book. What its accepted steps come to is summed where each is checked,
   in balance.c. */
#include "list.h"
#include "balance.h"
#include "book.h"
#include "booked.h"
#include "fault.h"

list_tally listed;

/* The list: whether it is booked, its starting energy, the sums of all steps before it, and its accepted bends and slides. */
static struct {
    int booked;
    wide start, bend_work;
    balance_tally before;
    unsigned bends, slides;
} list;

/* By the newest setup. */
static wide stored(const voice *v)
{
    voice_state s = state_of(v);
    return stored_energy(v->setup, s.newer, s.older, s.contact, s.finger);
}

void list_begin(const voice *v, int booked)
{
    list.booked = booked;
    list.start = stored(v);
    list.before = balanced;
    list.bend_work = 0;
    list.bends = list.slides = 0;
    listed.lists++;
    listed.books += booked != 0;
}

/* The gradients at the depths as they are. */
static equations contacts_of(const voice *v)
{
    equations e;
    given_step step = step_given(v, 0, 0);
    work_out_first(&e, &step);
    return e;
}

/* A book that began at the list's fresh start is never refused. */
static uint32_t by_own_book(uint32_t refusal)
{
    if (refusal >= 16)
        fault("refusal %u for a book that began at a fresh start", refusal);
    return refusal;
}

uint32_t list_step(voice *v, int32_t pluck, int32_t finger_force)
{
    sv_frame frame;
    return list.booked ? by_own_book(call_step_booked(v, pluck, finger_force)) : call_step(v, pluck, finger_force, &frame);
}

void list_other_book(const voice *v, sv_book book, int32_t pluck, int32_t finger_force)
{
    voice other = *v;
    other.book = book;
    if (call_step_booked(&other, pluck, finger_force) >= 16)
        listed.other_books++;
}

uint32_t list_bend(voice *v, uint32_t tension)
{
    voice_state s = state_of(v);
    wide work = bend_work(v->setup, tension, s.newer, s.older);
    uint32_t refusal = list.booked ? by_own_book(call_bend_booked(v, tension)) : call_bend(v, tension);
    if (refusal) {
        listed.bends_refused++;
        return refusal;
    }
    equations e = contacts_of(v);
    list.bend_work += work;
    list.bends++;
    listed.bends++;
    listed.adding += work > 0;
    listed.taking += work < 0;
    listed.bends_on_neck += (unsigned)on_neck(&e);
    listed.bends_pressed += e.g > 0;
    return 0;
}

uint32_t list_slide(voice *v, uint32_t place)
{
    int pressed = contacts_of(v).g > 0, elsewhere = place != v->setup.finger_place;
    uint32_t refusal = call_slide(v, place);
    if (refusal) {
        listed.slides_refused++;
        return refusal;
    }
    int presses = contacts_of(v).g > 0;
    list.slides++;
    listed.slides++;
    listed.slides_off += pressed && !presses;
    listed.slides_onto += !pressed && presses;
    listed.slides_pressed += pressed && presses && elsewhere;
    return 0;
}

/* Whether the newest string is out of rest. */
static int string_out(const voice *v)
{
    const int32_t *newer = state_of(v).newer;
    return product_of_rises(newer, newer, v->setup.segments - 1) > 0;
}

static wide size(wide number) { return number < 0 ? -number : number; }

/* What the list comes to so far. */
static entry sums(const voice *v)
{
    return (entry){stored(v), balanced.work - list.before.work + list.bend_work, balanced.loss - list.before.loss,
                   balanced.rounding_work - list.before.rounding_work, (uint32_t)(balanced.steps - list.before.steps)};
}

/* The book must hold these sums, each column in itself. */
static void check_book(const voice *v, entry e)
{
    same_book(v->book, (sv_book){words_of(e.stored), words_of(e.work), words_of(e.loss), words_of(e.rounding), e.steps});
    listed.books_checked++;
    listed.books_slid += list.slides > 0;
    listed.books_bent += list.bends > 0;
    listed.books_lost += e.loss > 0;
    listed.books_taken += e.work < 0;
    listed.rounded_up += e.rounding > 0;
    listed.rounded_down += e.rounding < 0;
}

void list_check(const voice *v)
{
    entry e = sums(v);
    wide limit = balanced.rounding_limit - list.before.rounding_limit, over = e.stored - (list.start + e.work - e.loss + e.rounding);
    int conserved = e.loss == 0 && balanced.forced == list.before.forced && list.bends == 0, counts = conserved && string_out(v);
    listed.checked++;
    listed.conserved += (unsigned)counts;
    listed.conserved_slid += counts && list.slides > 0;
    if (over != 0 || e.stored < 0)
        fault("stored energy %.0Lf at the start of a list and %.0Lf now, %.0Lf more than it comes to", (long double)list.start, (long double)e.stored,
              (long double)over);
    if (size(e.rounding) > limit || (conserved && size(e.stored - list.start) > limit))
        fault("rounding work %.0Lf in a list, and stored energy %.0Lf after %.0Lf: the limits come to %.0Lf", (long double)e.rounding, (long double)e.stored,
              (long double)list.start, (long double)limit);
    if (list.booked)
        check_book(v, e);
}
