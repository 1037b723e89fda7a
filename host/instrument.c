/* The guitar of the phrase: document 01's numbers worked out from physical values, named by 000's symbols where it has one. */
#include <math.h>
#include "instrument.h"

#define UNIT 5e-9        /* metres in one unit of displacement, so that the range of 1,048,576 units is 5.2 mm */
#define LENGTH 0.648     /* of the string, m */
#define T0 86.7          /* its tension, N: 110 Hz */
#define RHO_A 4.266e-3   /* its mass per length, kg/m */
#define E 2.0e11         /* Young's modulus of steel, Pa */
#define CORE 0.40e-3     /* the diameter of its core, m; the winding adds mass and hardly any stiffness */
#define SIGMA_1 2.2e-3   /* viscous loss, m^2/s. Its plain loss is 0: already Z = 1 would be 10.8 / s, 60 dB in 0.64 s */
#define FRET_TIP -2.5e-3 /* heights over the string at rest, m */
#define BOARD -3.5e-3
#define NO_BOARD -5.2e-3 /* past the last fret */
#define K_FRET 3.0e9     /* of the contact force K * depth^2, N/m^2: soft enough for a contact to last some steps */
#define K_BOARD 1.0e9
#define K_FINGER 5.0e8
#define FINGER_MASS 7e-3 /* kg */

static const double k = 1.0 / RATE, h = LENGTH / SEGMENTS;

const uint32_t fret_places[FRETS] = {5, 10, 14, 19, 23, 26, 30, 33, 36, 39, 42, 45, 48, 50, 52, 54, 56, 58, 60, 62, 63, 65};

/* Newtons in one unit of force: a string point weighs rhoA * h kilograms, or 4096 units, and an acceleration of one unit is UNIT in k^2. */
static double force_unit(void) { return RHO_A * h * UNIT / (4096 * k * k); }

static int32_t nearest_number(double x) { return (int32_t)lrint(fmax(-2147483647, fmin(2147483647, x))); }

int32_t units_of_metres(double metres) { return nearest_number(metres / UNIT); }

int32_t units_of_newtons(double newtons) { return nearest_number(newtons / force_unit()); }

double metres_of_units(double units) { return units * UNIT; }

/* 01 counts 8192 * a^2 for a point's kinetic energy, which is 4096 * a^2 / 2: stored energy is in quarters of force times displacement. */
double joules_of_units(wide energy) { return (double)energy * force_unit() * UNIT / 4; }

/* Below its greatest value G^2 is stiffness * depth / 16. A step adds G times the move of two steps to psi, so psi grows by 2 * G with the depth, to
   4 / 3 * G * depth, and the force 2 * G * psi is stiffness * depth^2 / 6. */
static uint16_t contact_stiffness(double K) { return (uint16_t)lrint(fmin(65535, 6 * K * UNIT * UNIT / force_unit())); }

/* The frequency goes with the root of the tension: 1200 cents, its double, take four times the tension. */
sv_setup instrument_setup(uint32_t finger_place, double cents, double hand)
{
    double I = acos(-1) * pow(CORE / 2, 4) / 4, bent = T0 * pow(2, cents / 600);
    return (sv_setup){
        .segments = SEGMENTS,
        .tension = (uint32_t)lrint(4096 * bent * k * k / (RHO_A * h * h)),
        .stiffness = (uint32_t)lrint(4096 * E * I * k * k / (RHO_A * pow(h, 4))),
        .viscous = (uint32_t)lrint(4096 * 2 * SIGMA_1 * k / (h * h)),
        .plain = (uint32_t)lrint(4096 * hand * k),
        .finger_stiffness = contact_stiffness(K_FINGER),
        .finger_mass = (uint32_t)lrint(4096 * FINGER_MASS / (RHO_A * h)),
        .finger_place = finger_place,
        .pluck_place = 72,  /* 13 cm from the bridge */
        .bridge_place = 84, /* 4 cm */
        .neck_place = 68,   /* 16 cm */
    };
}

uint32_t instrument_neck(sv_setup setup, int32_t heights[POINTS], uint16_t stiffness[POINTS])
{
    int32_t board[POINTS];
    for (uint32_t place = 1; place <= POINTS; place++)
        board[place - 1] = units_of_metres(place <= fret_places[FRETS - 1] ? BOARD : NO_BOARD);
    return sv_lay_neck(setup, board, POINTS, contact_stiffness(K_BOARD), fret_places, FRETS, units_of_metres(FRET_TIP), contact_stiffness(K_FRET),
                       heights, POINTS, stiffness, POINTS);
}
