/* The same scheme in plain C, with the same refusals: what a C programmer would write by hand. It is built at two levels of optimisation,
   under the names PLAIN_STEP and PLAIN_BLOCK, and compared with the product in speed and in every bit. */
#include <math.h>
#include "../include/string_voice.h"

#define DISPLACEMENT 1048576
#define CONTACT 67108864
#define FORCE 1073741824

static int outside(int64_t x, int64_t low, int64_t high) { return x < low || x > high; }

static int place_outside(sv_setup s, uint32_t place) { return place < 1 || place >= s.segments; }

static uint32_t setup_refusal(sv_setup s)
{
    if (s.segments < 2 || s.segments > 128)
        return 1;
    if (s.tension == 0 || s.tension > 4096 || s.stiffness > 4096 || s.viscous > 4096 || s.plain > 4096)
        return 2;
    if (s.tension + 4 * s.stiffness + 2 * s.viscous > 4096)
        return 3;
    if (place_outside(s, s.finger_place) || place_outside(s, s.pluck_place) || place_outside(s, s.bridge_place) || place_outside(s, s.neck_place))
        return 4;
    if (s.finger_mass < 1 || s.finger_mass > 1048576)
        return 5;
    return 0;
}

/* The greatest whole number whose square is at most 64q, for q up to 1023: where 64q is no square, its root is farther from a whole number than a float
   rounds it. */
static int64_t root(uint64_t q) { return (int64_t)sqrtf((float)(64 * q)); }

static int64_t gradient(uint16_t stiffness, int64_t depth)
{
    if (depth <= 0)
        return 0;
    uint64_t q = (uint64_t)stiffness * (uint64_t)depth / 1024;
    return root(q < 1023 ? q : 1023);
}

static int64_t nearest(int64_t num, int64_t den)
{
    int64_t twice = 2 * num + den, unit = 2 * den, quotient = twice / unit, rest = twice % unit;
    return rest == 0 ? quotient - (quotient & 1) : rest < 0 ? quotient - 1 : quotient;
}

static int lengths_wrong(size_t n, size_t a, size_t b, size_t c, size_t d, size_t e) { return a != n || b != n || c != n || d != n || e != n; }

/* 7 and 11 */
static uint32_t state_refusal(size_t n, const int32_t *heights, const int32_t *first, const int32_t *second, const int32_t *contact, sv_finger finger)
{
    for (size_t i = 0; i < n; i++)
        if (outside(heights[i], -DISPLACEMENT, 0))
            return 7;
    if (outside(finger.newer, -DISPLACEMENT, DISPLACEMENT) || outside(finger.older, -DISPLACEMENT, DISPLACEMENT) || outside(finger.contact, -CONTACT, CONTACT))
        return 11;
    for (size_t i = 0; i < n; i++)
        if (outside(first[i], -DISPLACEMENT, DISPLACEMENT) || outside(second[i], -DISPLACEMENT, DISPLACEMENT) || outside(contact[i], -CONTACT, CONTACT))
            return 11;
    return 0;
}

/* The string with its ends, its D1, and newer - older, by place. */
static void differences(size_t n, const int32_t *u, const int32_t *v, int64_t *string, int64_t *d1, int64_t *change)
{
    string[0] = string[n + 1] = d1[0] = d1[n + 1] = change[0] = change[n + 1] = 0;
    for (size_t i = 1; i <= n; i++) {
        string[i] = u[i - 1];
        change[i] = (int64_t)u[i - 1] - v[i - 1];
    }
    for (size_t i = 1; i <= n; i++)
        d1[i] = string[i - 1] - 2 * string[i] + string[i + 1];
}

/* What a step leads to, before it is judged. */
typedef struct {
    int64_t string[127], contact[127], height, finger_contact;
} outcome;

/* A point's equation: A and c without what its contact adds, the contact's gradient and variable. */
typedef struct {
    int64_t A, c, G, psi;
} point;

static int pulls(int64_t gradient, int64_t sum) { return gradient > 0 && sum < 0; }

static int64_t move_of(const point *x) { return nearest(x->c + 2 * x->G * x->psi, x->A + x->G * x->G); }

/* Away from p: answers the move, worked out again without the contact where that pulls. */
static int64_t settle(point *x)
{
    int64_t move = move_of(x);
    if (pulls(x->G, 2 * x->psi - x->G * move)) {
        x->G = 0;
        move = move_of(x);
    }
    return move;
}

/* The two-by-two system at p, worked out again without the contacts that pull until none does: answers the point's move. */
static int64_t settle_at_finger(sv_setup s, sv_finger finger, int64_t own, int32_t finger_force, point *x, outcome *next)
{
    int64_t g = gradient(s.finger_stiffness, own - finger.newer), phi = own > finger.newer ? finger.contact : 0, mass = s.finger_mass;
    for (;;) {
        int64_t gg = g * g, a11 = x->A + x->G * x->G + gg, a22 = mass + gg, b1 = x->c + 2 * x->G * x->psi - 2 * g * phi;
        int64_t b2 = 2 * mass * ((int64_t)finger.newer - finger.older) + finger_force + 2 * g * phi;
        int64_t det = a11 * a22 - gg * gg, finger_move = nearest(a11 * b2 + gg * b1, det), move = nearest(b1 * a22 + gg * b2, det);
        int dropped = pulls(x->G, 2 * x->psi - x->G * move), finger_dropped = pulls(g, 2 * phi + g * (move - finger_move));
        if (!dropped && !finger_dropped) {
            next->height = finger.older + finger_move;
            next->finger_contact = phi + g * (move - finger_move);
            return move;
        }
        if (dropped)
            x->G = 0;
        if (finger_dropped)
            g = 0;
    }
}

static void work_out(sv_setup s, const int32_t *heights, const uint16_t *stiffness, const int32_t *u, const int32_t *v, const int32_t *contact,
                     sv_finger finger, int32_t pluck, int32_t finger_force, outcome *next)
{
    int64_t string[130], d1[130], change[130];
    differences(s.segments - 1, u, v, string, d1, change);
    for (size_t i = 1; i < s.segments; i++) {
        int64_t depth = heights[i - 1] - string[i];
        point x = {.A = 4096 + s.plain, .G = gradient(stiffness[i - 1], depth), .psi = depth > 0 ? contact[i - 1] : 0};
        x.c = 8192 * change[i] + (int64_t)s.tension * d1[i] - (int64_t)s.stiffness * (d1[i - 1] - 2 * d1[i] + d1[i + 1])
            + (int64_t)s.viscous * (change[i - 1] - 2 * change[i] + change[i + 1]);
        if (i == s.pluck_place)
            x.c += pluck;
        int64_t move = i == s.finger_place ? settle_at_finger(s, finger, string[i], finger_force, &x, next) : settle(&x);
        next->string[i - 1] = v[i - 1] + move;
        next->contact[i - 1] = x.psi - x.G * move;
    }
}

static int any_outside(int64_t first, size_t n, const int64_t *numbers, int64_t limit)
{
    int bad = outside(first, -limit, limit);
    for (size_t i = 0; i < n && !bad; i++)
        bad = outside(numbers[i], -limit, limit);
    return bad;
}

/* A step whose setup, buffers, neck and state are examined: 12, 13 and 14 are left. */
static sv_stepped advance(sv_setup s, const int32_t *heights, const uint16_t *stiffness, int32_t *first, int32_t *second, int32_t *contact,
                          uint32_t turn, sv_finger finger, int32_t pluck, int32_t finger_force)
{
    sv_stepped r = {0, turn, finger, {0, 0}};
    size_t n = s.segments - 1;
    int32_t *v = turn ? first : second;
    outcome next;
    if (outside(pluck, -FORCE, FORCE) || outside(finger_force, -FORCE, FORCE)) {
        r.refusal = 12;
        return r;
    }
    work_out(s, heights, stiffness, turn ? second : first, v, contact, finger, pluck, finger_force, &next);
    if (any_outside(next.height, n, next.string, DISPLACEMENT)) {
        r.refusal = 13;
        return r;
    }
    if (any_outside(next.finger_contact, n, next.contact, CONTACT)) {
        r.refusal = 14;
        return r;
    }
    for (size_t i = 0; i < n; i++) {
        v[i] = (int32_t)next.string[i];
        contact[i] = (int32_t)next.contact[i];
    }
    r.turn = turn ? 0 : 1;
    r.finger = (sv_finger){(int32_t)next.height, finger.newer, (int32_t)next.finger_contact};
    r.frame = (sv_frame){(float)v[s.bridge_place - 1] / 1048576.0f, (float)v[s.neck_place - 1] / 1048576.0f};
    return r;
}

sv_stepped PLAIN_STEP(sv_setup s, const int32_t *heights, size_t heights_length, const uint16_t *stiffness, size_t stiffness_length,
                      int32_t *first, size_t first_length, int32_t *second, size_t second_length, int32_t *contact, size_t contact_length,
                      uint32_t turn, sv_finger finger, int32_t pluck, int32_t finger_force)
{
    sv_stepped r = {setup_refusal(s), turn, finger, {0, 0}};
    if (r.refusal == 0 && lengths_wrong(s.segments - 1, heights_length, stiffness_length, first_length, second_length, contact_length))
        r.refusal = 6;
    if (r.refusal == 0)
        r.refusal = state_refusal(s.segments - 1, heights, first, second, contact, finger);
    if (r.refusal)
        return r;
    return advance(s, heights, stiffness, first, second, contact, turn, finger, pluck, finger_force);
}

sv_played PLAIN_BLOCK(sv_setup s, const int32_t *heights, size_t heights_length, const uint16_t *stiffness, size_t stiffness_length,
                      int32_t *first, size_t first_length, int32_t *second, size_t second_length, int32_t *contact, size_t contact_length,
                      uint32_t turn, sv_finger finger, const int32_t *forces, size_t forces_length, float *samples, size_t samples_length)
{
    sv_played b = {0, setup_refusal(s), turn, finger};
    if (b.refusal == 0 && lengths_wrong(s.segments - 1, heights_length, stiffness_length, first_length, second_length, contact_length))
        b.refusal = 6;
    if (b.refusal == 0 && (forces_length % 2 == 1 || samples_length < forces_length))
        b.refusal = 15;
    if (b.refusal == 0)
        b.refusal = state_refusal(s.segments - 1, heights, first, second, contact, finger);
    while (b.refusal == 0 && b.count < forces_length / 2) {
        size_t at = 2 * b.count;
        sv_stepped r = advance(s, heights, stiffness, first, second, contact, b.turn, b.finger, forces[at], forces[at + 1]);
        b.refusal = r.refusal;
        if (r.refusal == 0) {
            b.turn = r.turn;
            b.finger = r.finger;
            samples[at] = r.frame.bridge;
            samples[at + 1] = r.frame.neck;
            b.count++;
        }
    }
    return b;
}
