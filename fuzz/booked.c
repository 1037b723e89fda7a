/* Booked steps and bends beside their oracles. */
#include "booked.h"
#include "balance.h"
#include "book.h"
#include "fault.h"
#include "pulling.h"
#include "rules.h"

booking_tally booking;

/* The step without a book, made on a copy: the booked one must answer and write the same, and book what it came to. */
static void expect_step(voice *v, int32_t pluck, int32_t finger_force, sv_booked *expected)
{
    voice copy = copied(v);
    balance_tally sums = balanced;
    pulling_tally gone = pulling;
    expected->refusal = call_step(&copy, pluck, finger_force, &expected->frame);
    if (expected->refusal)
        return;
    voice_state s = state_of(&copy);
    expected->turn = copy.turn;
    expected->finger = copy.finger;
    expected->book = booked(v->book, (entry){stored_energy(v->setup, s.newer, s.older, s.contact, s.finger), balanced.work - sums.work, balanced.loss - sums.loss,
                                             balanced.rounding_work - sums.rounding_work, 1});
    lent_expect(v->first, copy.first);
    lent_expect(v->second, copy.second);
    lent_expect(v->contact, copy.contact);
    booking.cleared += pulling.cleared - gone.cleared;
    booking.finger_cleared += pulling.finger_cleared - gone.finger_cleared;
}

/* A refused book stops the step after 12 and before anything is stepped. */
static sv_booked expected_step(voice *v, int32_t pluck, int32_t finger_force)
{
    sv_booked expected = {book_refusal(v->book), v->turn, v->finger, {0, 0}, v->book};
    if (expected.refusal == 0) {
        expect_step(v, pluck, finger_force, &expected);
        return expected;
    }
    uint32_t refusal = refusal_by_oracle(v, pluck, finger_force);
    if (refusal >= 1 && refusal <= 12)
        expected.refusal = refusal;
    return expected;
}

static wide column(const sv_book *book, int i)
{
    sv_wide columns[COLUMNS] = {book->stored, book->work, book->loss, book->rounding};
    return wide_of(columns[i]);
}

/* How many of a book's columns lie from low to high. */
static int columns_in(const sv_book *book, wide low, wide high)
{
    int number = 0;
    for (int i = 0; i < COLUMNS; i++)
        number += low <= column(book, i) && column(book, i) <= high;
    return number;
}

/* Whether one of the columns that are summed up has a high word raised, by 1, or lowered, by -1. */
static int high_word_changed(const sv_book *before, const sv_book *after, int by)
{
    int changed = 0;
    for (int i = 1; i < COLUMNS; i++)
        changed |= (column(after, i) >> 64) - (column(before, i) >> 64) == by;
    return changed;
}

static int is_long(wide number) { return number < INT64_MIN || number > INT64_MAX; }

static void count_booked(const sv_book *before, const sv_book *after, uint32_t refusal)
{
    if (refusal) {
        booking.next_to_end += refusal == 17 && columns_in(before, -COLUMN - 1, COLUMN + 1) == COLUMNS;
        return;
    }
    booking.negative += columns_in(before, -COLUMN, -1) > 0;
    booking.at_end += columns_in(before, COLUMN, COLUMN) + columns_in(before, -COLUMN, -COLUMN) > 0;
    booking.raised += (unsigned)high_word_changed(before, after, 1);
    booking.lowered += (unsigned)high_word_changed(before, after, -1);
    booking.left_range += columns_in(after, -COLUMN, COLUMN) < COLUMNS;
    booking.long_stored += (unsigned)is_long(wide_of(after->stored));
    booking.long_work += (unsigned)is_long(wide_of(after->work) - wide_of(before->work));
    booking.last_step += before->count != after->count && after->count == UINT32_MAX;
}

static sv_booked step_of_library(const voice *v, int32_t pluck, int32_t finger_force)
{
    return sv_step_booked(v->setup, lent_shown(v->heights), v->heights->length, lent_shown(v->stiffness), v->stiffness->length, lent_numbers(v->first),
                          v->first->length, lent_numbers(v->second), v->second->length, lent_numbers(v->contact), v->contact->length, v->turn, v->finger, pluck,
                          finger_force, v->book);
}

uint32_t call_step_booked(voice *v, int32_t pluck, int32_t finger_force)
{
    sv_booked expected = expected_step(v, pluck, finger_force);
    begin(STEP_BOOKED, v->setup);
    sv_booked answered = step_of_library(v, pluck, finger_force);
    same_refusal(answered.refusal, expected.refusal);
    same("turn", answered.turn, expected.turn);
    same_finger(answered.finger, expected.finger);
    same_frame(answered.frame, expected.frame);
    same_book(answered.book, expected.book);
    voice_agrees(v);
    count_booked(&v->book, &answered.book, answered.refusal);
    v->turn = answered.turn;
    v->finger = answered.finger;
    v->book = answered.book;
    return answered.refusal;
}

static sv_bent bend_by(typeof(sv_bend_booked) *bend, side whose, const voice *v, uint32_t tension)
{
    return bend(v->setup, tension, shown(whose, v->first), v->first->length, shown(whose, v->second), v->second->length, shown(whose, v->contact),
                v->contact->length, v->turn, v->finger, v->book);
}

/* What a bend adds to the stored energy is its work, whatever the old tension. */
static void bend_balanced(const voice *v, const sv_bent *bent)
{
    voice_state s = state_of(v);
    wide before = stored_energy(v->setup, s.newer, s.older, s.contact, s.finger), work = wide_of(bent->book.work) - wide_of(v->book.work);
    if (wide_of(bent->book.stored) != before + work)
        fault("stored energy %.0Lf before a bend and %.0Lf after it, and a work of %.0Lf", (long double)before, (long double)wide_of(bent->book.stored),
              (long double)work);
}

uint32_t call_bend_booked(voice *v, uint32_t tension)
{
    begin(BEND_BOOKED, v->setup);
    sv_bent answered = bend_by(sv_bend_booked, LIBRARY, v, tension), expected = bend_by(rule_bend_booked, ORACLE, v, tension);
    same_refusal(answered.refusal, expected.refusal);
    same_setup(answered.setup, expected.setup);
    same_book(answered.book, expected.book);
    lent_agree(v->first);
    lent_agree(v->second);
    lent_agree(v->contact);
    if (answered.refusal == 0)
        bend_balanced(v, &answered);
    count_booked(&v->book, &answered.book, answered.refusal);
    booking.mended += answered.refusal == 0 && rule_check_setup(v->setup) != 0;
    v->setup = answered.setup;
    v->book = answered.book;
    return answered.refusal;
}
