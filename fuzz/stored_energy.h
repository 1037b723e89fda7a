/* 01, 'Energy', and 02, item 5: the stored energy of a voice and the work of a bend, in whole numbers of 128 bits, so exactly. */
#ifndef STORED_ENERGY_H
#define STORED_ENERGY_H

#include "../host/wide.h"

/* The value at place i of a string of n points; both ends rest at 0. */
static inline wide value_at(const int32_t *string, size_t n, size_t i) { return i >= 1 && i <= n ? string[i - 1] : 0; }

/* D1 at place i: left neighbour - 2 * own + right neighbour, 0 at both ends. */
static inline wide first_difference(const int32_t *string, size_t n, size_t i)
{
    return i >= 1 && i <= n ? value_at(string, n, i - 1) - 2 * value_at(string, n, i) + value_at(string, n, i + 1) : 0;
}

/* E(a, b): the sum over all segments of (rise of a) times (rise of b), for two strings of n points. */
static inline wide product_of_rises(const int32_t *a, const int32_t *b, size_t n)
{
    wide sum = 0;
    for (size_t i = 0; i <= n; i++)
        sum += (value_at(a, n, i + 1) - value_at(a, n, i)) * (value_at(b, n, i + 1) - value_at(b, n, i));
    return sum;
}

/* What a bend to another tension adds to the work; the old tension may be any. */
static inline wide bend_work(sv_setup setup, uint32_t tension, const int32_t *newer, const int32_t *older)
{
    return 2 * ((wide)tension - setup.tension) * product_of_rises(newer, older, setup.segments - 1);
}

/* The stored energy of newer and older string, contact variables and finger; the setup is one that is accepted, after bends the newest. */
static inline wide stored_energy(sv_setup setup, const int32_t *newer, const int32_t *older, const int32_t *contact, sv_finger finger)
{
    size_t n = setup.segments - 1;
    wide kinetic = 0, bending = 0, viscous = 0, contacts = 0;
    for (size_t i = 1; i <= n; i++) {
        wide change = value_at(newer, n, i) - value_at(older, n, i), psi = value_at(contact, n, i);
        kinetic += change * change;
        bending += first_difference(newer, n, i) * first_difference(older, n, i);
        contacts += psi * psi;
    }
    for (size_t i = 0; i <= n; i++) {
        wide rise = value_at(newer, n, i + 1) - value_at(newer, n, i), older_rise = value_at(older, n, i + 1) - value_at(older, n, i);
        viscous += (rise - older_rise) * (rise - older_rise);
    }
    wide speed = (wide)finger.newer - finger.older, phi = finger.contact;
    return 8192 * kinetic + 2 * (wide)setup.tension * product_of_rises(newer, older, n) + 2 * (wide)setup.stiffness * bending - (wide)setup.viscous * viscous
        + 2 * contacts + 2 * (wide)setup.finger_mass * speed * speed + 2 * phi * phi;
}

#endif
