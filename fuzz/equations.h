/* 01, 'One step', with 02's item 3: the gradients and equations of one step, worked out from the state before it and its forces. */
#ifndef EQUATIONS_H
#define EQUATIONS_H

#include "stored_energy.h"

enum { PLACES = 129 };

typedef struct {
    const int32_t *newer, *older, *contact; /* N - 1 numbers each */
    sv_finger finger;
} voice_state;

/* What a step is given. */
typedef struct {
    sv_setup setup; /* one that is accepted */
    const int32_t *heights;
    const uint16_t *stiffness;
    voice_state before;
    int32_t pluck, finger_force;
} given_step;

/* What was cleared before a step, and which contacts were dropped. Workings are counted from 1. */
typedef struct {
    unsigned cleared, finger_cleared; /* contact variables other than 0 that became 0: of points, and the finger's */
    wide energy;                      /* twice the square of each of them */
    unsigned away;                    /* contacts dropped away from p */
    unsigned string_at_p, finger;     /* the working in which the string's contact at p was dropped, and the finger's; 0 if it was not */
} let_go;

/* A working: the gradients that are left, and the equations with them. The numbers at place i are those of index i, from 1 to N - 1. */
typedef struct {
    size_t N, p;
    int64_t psi[PLACES], phi;                /* contact variables, cleared */
    int64_t G[PLACES], A[PLACES], c[PLACES]; /* gradient, factor and right side; away from p these are the whole equation */
    int64_t g, m;                            /* the finger's gradient and its mass */
    int64_t string_side, finger_side;        /* the right sides of the two equations at p */
    int64_t free_c[PLACES], free_side;       /* c and the finger's right side without what the contacts add to them */
    let_go gone;                             /* before this working */
} equations;

/* A fraction, its denominator above 0. */
typedef struct {
    wide numerator, denominator;
} fraction;

void work_out_first(equations *e, const given_step *step); /* the first working, with the gradients at the depths */
void work_out(equations *e, const given_step *step);       /* the last working, in which no contact pulls */
int on_neck(const equations *e);                           /* whether a gradient is above 0 at a point */
int any_contact(const equations *e);                       /* whether one is, at a point or the finger's */
int any_dropped(const equations *e);                       /* whether there was a working before this one */
fraction exact_move(const equations *e, size_t i);         /* the exact solution at place i, at p that of both equations */
fraction exact_finger_move(const equations *e);
int64_t rounded(fraction exact);                           /* the nearest whole number, a tie to the even one */

#endif
