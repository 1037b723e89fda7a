/* 02, item 2: moves beside the exact solution, by comparing each with both its neighbours. */
#include "nearest.h"
#include <stdio.h>

unsigned long long ties[TIE_PLACES][2][2], ties_met;
static char wrong[200];

/* From a whole number to a fraction, times its denominator. */
static wide distance(fraction exact, int64_t number)
{
    wide way = exact.denominator * number - exact.numerator;
    return way < 0 ? -way : way;
}

/* No neighbour is nearer, and where one is as near, the move is the even one. */
static int is_nearest(int where, size_t place, fraction exact, int64_t move)
{
    wide own = distance(exact, move), below = distance(exact, move - 1), above = distance(exact, move + 1);
    int tie = own == below || own == above;
    if (own > below || own > above || (tie && move % 2 != 0)) {
        snprintf(wrong, sizeof wrong, "the %s move at place %zu is %lld, where %.0Lf / %.0Lf is the exact one", where >= OF_FINGER ? "finger's" : "string's", place,
                 (long long)move, (long double)exact.numerator, (long double)exact.denominator);
        return 0;
    }
    if (tie)
        ties[where][exact.numerator > 0][own == above]++;
    ties_met += (unsigned)tie;
    return 1;
}

const char *nearest_fault(const equations *e, const int64_t *moves, int64_t finger_move)
{
    int pressed = e->g > 0;
    for (size_t i = 1; i < e->N; i++)
        if (!is_nearest(i != e->p ? AWAY : pressed ? AT_P_PRESSED : AT_P, i, exact_move(e, i), moves[i]))
            return wrong;
    return is_nearest(pressed ? OF_FINGER_PRESSED : OF_FINGER, e->p, exact_finger_move(e), finger_move) ? NULL : wrong;
}
