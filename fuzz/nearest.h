/* 02, item 2: each move is the whole number nearest the exact solution, a tie to the even one. */
#ifndef NEAREST_H
#define NEAREST_H

#include "equations.h"

/* Where a tie was: away from p; at p and of the finger, each with the finger's gradient 0 and above 0. */
enum { AWAY, AT_P, AT_P_PRESSED, OF_FINGER, OF_FINGER_PRESSED, TIE_PLACES };

/* The ties of the steps checked: by where, by the sign of the solution (1: above 0), and by the even neighbour (1: the lower one). */
extern unsigned long long ties[TIE_PLACES][2][2];
extern unsigned long long ties_met; /* all of them */

/* What is wrong with the moves, in words, or NULL. */
const char *nearest_fault(const equations *e, const int64_t *moves, int64_t finger_move);

#endif
