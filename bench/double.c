/* The same scheme in double precision, as a C programmer would write it who leaves the checks out: strings, contact variables and finger are doubles, moves
   are real quotients, and the gradient is a square root. It leaves out
   - every refusal: no setup, length, height, state, force or result is examined, and the new string is written as soon as it is known;
   - every rounding: of the moves, of the number q and of its root.
   So it agrees with the whole-number voices nearly and not in every bit. The loops are short, so that -O3 can take two points at a time. It is built at two
   levels of optimisation, under the names DOUBLE_STEP and DOUBLE_BLOCK. */
#include <math.h>
#include "double.h"

typedef struct {
    double point, finger;
} moves;

static double gradient(double stiffness, double depth)
{
    if (depth <= 0)
        return 0;
    double q = stiffness * depth / 1024;
    return sqrt(64 * (q < 1023 ? q : 1023));
}

/* c of each point without its contact: L*D1u - M*D2u + S*D1(u - v) is D1 of one weighted string, 0 at both ends. */
static void right_sides(sv_setup s, const double *u, const double *v, double *c)
{
    size_t n = s.segments - 1;
    double L = s.tension, M = s.stiffness, S = s.viscous, weighted[129];
    weighted[0] = weighted[n + 1] = 0;
    for (size_t i = 0; i < n; i++) {
        double left = i > 0 ? u[i - 1] : 0, right = i + 1 < n ? u[i + 1] : 0;
        weighted[i + 1] = (L + 2 * M + S) * u[i] - M * (left + right) - S * v[i];
    }
    for (size_t i = 0; i < n; i++)
        c[i] = 8192 * (u[i] - v[i]) + weighted[i] - 2 * weighted[i + 1] + weighted[i + 2];
}

static int pulls(double gradient, double sum) { return gradient > 0 && sum < 0; }

/* The moves of all points as if none were p, each worked out again without its contact where that pulls: then its gradient becomes 0. */
static void point_moves(size_t n, double A, const double *c, const double *contact, double *G, double *move)
{
    for (size_t i = 0; i < n; i++)
        move[i] = (c[i] + 2 * G[i] * contact[i]) / (A + G[i] * G[i]);
    for (size_t i = 0; i < n; i++)
        if (pulls(G[i], 2 * contact[i] - G[i] * move[i])) {
            G[i] = 0;
            move[i] = c[i] / A;
        }
}

/* The two-by-two system at p, worked out again without the contacts that pull until none does; their gradients become 0. */
static moves finger_moves(double A, double c, double psi, double mass, double_finger finger, double force, double *G, double *g)
{
    for (;;) {
        double gg = *g * *g, a11 = A + *G * *G + gg, a22 = mass + gg, pull = 2 * *g * finger.contact, b1 = c + 2 * *G * psi - pull;
        double b2 = 2 * mass * (finger.newer - finger.older) + force + pull, det = a11 * a22 - gg * gg;
        moves m = {(b1 * a22 + gg * b2) / det, (a11 * b2 + gg * b1) / det};
        int dropped = pulls(*G, 2 * psi - *G * m.point), finger_dropped = pulls(*g, 2 * finger.contact + *g * (m.point - m.finger));
        if (!dropped && !finger_dropped)
            return m;
        if (dropped)
            *G = 0;
        if (finger_dropped)
            *g = 0;
    }
}

static double_stepped advance(sv_setup s, const double *heights, const double *stiffness, const double *u, double *v, double *contact,
                              uint32_t turn, double_finger finger, double pluck, double finger_force)
{
    size_t n = s.segments - 1, p = s.finger_place - 1;
    double G[127], c[127], move[127], A = 4096 + s.plain, g = gradient(s.finger_stiffness, u[p] - finger.newer);
    for (size_t i = 0; i < n; i++)
        contact[i] = heights[i] > u[i] ? contact[i] : 0;
    finger.contact = u[p] > finger.newer ? finger.contact : 0;
    for (size_t i = 0; i < n; i++)
        G[i] = gradient(stiffness[i], heights[i] - u[i]);
    right_sides(s, u, v, c);
    c[s.pluck_place - 1] += pluck;
    double at_p = G[p]; /* its own system decides whether it is dropped */
    point_moves(n, A, c, contact, G, move);
    G[p] = at_p;
    moves m = finger_moves(A, c[p], contact[p], s.finger_mass, finger, finger_force, &G[p], &g);
    move[p] = m.point;
    for (size_t i = 0; i < n; i++) {
        v[i] += move[i];
        contact[i] -= G[i] * move[i];
    }
    double_finger moved = {finger.older + m.finger, finger.newer, finger.contact + g * (m.point - m.finger)};
    sv_frame frame = {(float)(v[s.bridge_place - 1] / 1048576), (float)(v[s.neck_place - 1] / 1048576)};
    return (double_stepped){turn, moved, frame};
}

double_stepped DOUBLE_STEP(sv_setup s, const double *heights, const double *stiffness, double *first, double *second, double *contact,
                           uint32_t turn, double_finger finger, int32_t pluck, int32_t finger_force)
{
    return advance(s, heights, stiffness, turn ? second : first, turn ? first : second, contact, !turn, finger, pluck, finger_force);
}

double_played DOUBLE_BLOCK(sv_setup s, const double *heights, const double *stiffness, double *first, double *second, double *contact,
                           uint32_t turn, double_finger finger, const int32_t *forces, size_t steps, float *samples)
{
    double_played b = {turn, finger};
    for (size_t j = 0; j < steps; j++) {
        double_stepped r = DOUBLE_STEP(s, heights, stiffness, first, second, contact, b.turn, b.finger, forces[2 * j], forces[2 * j + 1]);
        b = (double_played){r.turn, r.finger};
        samples[2 * j] = r.frame.bridge;
        samples[2 * j + 1] = r.frame.neck;
    }
    return b;
}
