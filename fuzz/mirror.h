/* 02, item 2, the symmetry: two runs of steps, every displacement, finger height and force of one the negative of the other's. */
#ifndef MIRROR_H
#define MIRROR_H

#include "calls.h"

/* Pairs of steps, made while no gradient of the last moves was above 0 in either run. */
typedef struct {
    unsigned long long pairs;   /* of runs that were begun */
    unsigned long long moved;   /* both accepted, and a string or a finger moved */
    unsigned long long tied;    /* of these, with a tie */
    unsigned long long dropped; /* of these, with a contact dropped */
    unsigned long long refused; /* both refused */
} mirror_tally;
extern mirror_tally mirrored;

void mirror_open(void);
void mirrored_runs(voice *v); /* draws the voice and its mirror, and makes steps of both */

#endif
