/* Drawn arguments: setups, necks, strings, fingers and forces that are in order, and changes that put some of them out of order. */
#ifndef ARGUMENTS_H
#define ARGUMENTS_H

#include "../include/string_voice.h"
#include "lent.h"

/* What step, block and reading are lent, and the book of booked steps and bends. */
typedef struct {
    sv_setup setup;
    lent *heights, *stiffness, *first, *second, *contact;
    uint32_t turn;
    sv_finger finger;
    sv_book book;
} voice;

/* What laying a neck takes. */
typedef struct {
    lent *board, *frets;
    uint16_t board_stiffness, fret_stiffness;
    int32_t tip;
} neck_plan;

/* What may be changed, as bits: a field of the setup, the length of a buffer, a board or neck height, the fret list, its tip height, a displacement,
   finger height or contact variable, a force, the number of forces or samples, the place that is read or slid to, the tension of a bend, a column or the
   count of a book. */
enum { SETUP = 1, LENGTH = 2, HEIGHT = 4, FRETS = 8, TIP = 16, STATE = 32, FORCES = 64, COUNTS = 128, PLACE = 256, TENSION = 512, BOOK = 1024,
       KINDS_OF_CHANGES = 11 };
unsigned draw_changes(unsigned possible); /* none in half of the draws, else one to three of them */

/* Each of these draws what is in order but for the changes. `points` is what the lengths go by: N - 1 of an accepted setup, sometimes of a refused one. */
size_t draw_setup(sv_setup *setup, unsigned changes); /* the points */
void draw_plan(neck_plan *plan, size_t points, unsigned changes);
void draw_neck(voice *v, size_t points, unsigned changes);
void draw_state(voice *v, size_t points, unsigned changes);
void draw_pressed(voice *v); /* all in order: small numbers by which string and finger are both in contact, and often pull at p */
void draw_forces(lent *forces, lent *samples, const sv_setup *setup, uint32_t most_steps, uint32_t greatest, unsigned changes);

int32_t within(int64_t number, int32_t end); /* the number, or the end of its range, -end to end, that is next to it */
size_t draw_length(size_t points, unsigned changes);
uint32_t draw_turn(void);
uint32_t draw_place(size_t points, unsigned changes);
uint32_t draw_tension(const sv_setup *setup, unsigned changes); /* of a bend */
int32_t draw_force(const sv_setup *setup, uint32_t greatest, unsigned changes); /* in order, it is no greater than that, but for ties; none at 0 */
sv_book draw_book(unsigned changes);
void draw_start(int32_t *height, int32_t *older_height, unsigned changes);    /* the finger's heights at a fresh start; changed by STATE */

#endif
