/* 01, 'Energy', with 02's items 5 and 6: the energy of a whole list of calls from a fresh start: steps, blocks, bends and slides, each of which may be refused;
   and its book, where all its steps and bends are booked. */
#ifndef LIST_H
#define LIST_H

#include "calls.h"

/* What the lists checked so far had in them. Pressed and on the neck go by the gradients at the depths as they are. */
typedef struct {
    unsigned long long lists;          /* begun */
    unsigned long long checked;        /* calls after which a list's energy was checked */
    unsigned long long conserved;      /* of these, with the string out of rest, but without loss, force and bend so far */
    unsigned long long conserved_slid; /* of these, with a slide before */
    unsigned long long bends;          /* accepted */
    unsigned long long adding, taking; /* of these, with a work above 0, and below 0 */
    unsigned long long bends_on_neck, bends_pressed;
    unsigned long long slides;         /* accepted */
    unsigned long long slides_pressed; /* of these, from a place where the finger presses to another */
    unsigned long long slides_off;     /* to one where it does not */
    unsigned long long slides_onto;    /* from such a one to one where it does */
    unsigned long long bends_refused, slides_refused;
    unsigned long long books;          /* lists whose steps and bends are all booked */
    unsigned long long books_checked;  /* calls after which such a list's book was checked */
    unsigned long long books_slid, books_bent;   /* of these, after a slide, and after a bend */
    unsigned long long books_lost, books_taken;  /* with a loss, and with a work below 0 */
    unsigned long long rounded_up, rounded_down; /* with a rounding work above 0, and below 0 */
    unsigned long long other_books;    /* steps of such a list that were refused for another book */
} list_tally;
extern list_tally listed;

void list_begin(const voice *v, int booked);    /* after the fresh start of the voice; whether its steps and bends are booked */

/* The calls of a list, booked where it is; each answers the refusal. */
uint32_t list_step(voice *v, int32_t pluck, int32_t finger_force);
uint32_t list_bend(voice *v, uint32_t tension); /* its work is summed up too */
uint32_t list_slide(voice *v, uint32_t place);
void list_other_book(const voice *v, sv_book book, int32_t pluck, int32_t finger_force); /* a booked step with another book, which is refused */

void list_check(const voice *v); /* after any call of the list: a fault unless its energy is right, and its book */

#endif
