/* How long one step takes, alone and in a block: the product beside plain C of the same scheme with the same refusals, and beside double precision
   without any; and a booked step beside one without a book; free and in contact, for several N. Each is timed in many short stretches that alternate. The
   whole-number voices must agree in every bit, and on a free string the double-precision ones nearly. */
#include <math.h>
#include <stdio.h>
#include <stdlib.h>
#include <string.h>
#include <time.h>
#include "double.h"

typedef sv_stepped step_function(sv_setup, const int32_t *, size_t, const uint16_t *, size_t, int32_t *, size_t, int32_t *, size_t, int32_t *, size_t,
                                 uint32_t, sv_finger, int32_t, int32_t);
typedef sv_played block_function(sv_setup, const int32_t *, size_t, const uint16_t *, size_t, int32_t *, size_t, int32_t *, size_t, int32_t *, size_t,
                                 uint32_t, sv_finger, const int32_t *, size_t, float *, size_t);
step_function plain_step_o2, plain_step_o3;
block_function plain_block_o2, plain_block_o3;
double_step_function double_step_o2, double_step_o3;
double_block_function double_block_o2, double_block_o3;

/* A pluck comes every CYCLE stretches of STEPS steps. The kinds are WHOLE ones in whole numbers, then REAL ones in double
   precision. */
enum { STEPS = 64, CYCLE = 8, CYCLES = 150, WARM_UP = 4, WHOLE = 3, REAL = 2, KINDS = WHOLE + REAL, SIZES = 5 };
/* The neck lies far below; the string strikes a neck close under two points of three; the finger presses it to the neck around p; a force at e presses it to
   two points of three of an arched neck, and it stays there. */
enum contacts { FREE, STRUCK, STOPPED, PRESSED, SCENES };
static const char *const names[SCENES] = {"free", "struck", "stopped", "pressed"};
static step_function *const step[WHOLE] = {sv_step, plain_step_o2, plain_step_o3};
static block_function *const block[WHOLE] = {sv_play_block, plain_block_o2, plain_block_o3};
static double_step_function *const double_step[REAL] = {double_step_o2, double_step_o3};
static double_block_function *const double_block[REAL] = {double_block_o2, double_block_o3};

/* How deep an arched neck is where it is lowest. */
#define ARCH 20000

/* How far a sample of a free string in double precision may be from the product's: this part of the loudest one. */
#define TOLERANCE 0.005

typedef struct {
    int32_t first[127], second[127], contact[127];
    uint32_t turn;
    sv_finger finger;
    float samples[2 * STEPS];
} voice;

typedef struct {
    double first[127], second[127], contact[127];
    uint32_t turn;
    double_finger finger;
    float samples[2 * STEPS];
} double_voice;

/* A scene, its voices (first those that make single steps, then those that play blocks; and one whose single steps are booked), and what came of it. */
typedef struct {
    sv_setup setup;
    enum contacts contacts;
    int32_t heights[127];
    uint16_t stiffness[127];
    double double_heights[127], double_stiffness[127];
    voice whole[2][WHOLE], booked;
    sv_book book;
    double_voice real[2][REAL];
    double best[2][KINDS][CYCLE], best_booked[CYCLE]; /* ns a step */
    long pressed, double_pressed, looked_at; /* points, after each stretch */
    double loudest, apart; /* samples */
} scene;

static double nanoseconds(void)
{
    struct timespec t;
    clock_gettime(CLOCK_MONOTONIC, &t);
    return 1e9 * t.tv_sec + t.tv_nsec;
}

static void fail(const char *what)
{
    printf("%s\n", what);
    exit(1);
}

/* The forces of a stretch: a pluck upward at the start of a cycle, added to what the scene holds the string down with, at e or by the finger. */
static void forces_of(const scene *c, int phase, int32_t *forces)
{
    int32_t press = -(int32_t)(64 * ARCH * c->setup.tension / c->setup.segments); /* 16 times what holds the string's middle at that depth */
    int32_t held = c->contacts == STRUCK ? -500000 : c->contacts == PRESSED ? press : 0;
    for (int j = 0; j < STEPS; j++) {
        forces[2 * j] = held + (phase == 0 && j < 30 ? 9000000 : 0);
        forces[2 * j + 1] = c->contacts == STOPPED ? press : 0;
    }
}

static void whole_steps(scene *c, int kind, voice *v, const int32_t *forces)
{
    size_t n = c->setup.segments - 1;
    for (int j = 0; j < STEPS; j++) {
        sv_stepped r = step[kind](c->setup, c->heights, n, c->stiffness, n, v->first, n, v->second, n, v->contact, n, v->turn, v->finger,
                                  forces[2 * j], forces[2 * j + 1]);
        if (r.refusal)
            fail("a step is refused");
        v->turn = r.turn;
        v->finger = r.finger;
        v->samples[2 * j] = r.frame.bridge;
        v->samples[2 * j + 1] = r.frame.neck;
    }
}

static void booked_steps(scene *c, const int32_t *forces)
{
    size_t n = c->setup.segments - 1;
    voice *v = &c->booked;
    for (int j = 0; j < STEPS; j++) {
        sv_booked r = sv_step_booked(c->setup, c->heights, n, c->stiffness, n, v->first, n, v->second, n, v->contact, n, v->turn, v->finger,
                                     forces[2 * j], forces[2 * j + 1], c->book);
        if (r.refusal)
            fail("a booked step is refused");
        c->book = r.book;
        v->turn = r.turn;
        v->finger = r.finger;
        v->samples[2 * j] = r.frame.bridge;
        v->samples[2 * j + 1] = r.frame.neck;
    }
}

static void whole_block(scene *c, int kind, voice *v, const int32_t *forces)
{
    size_t n = c->setup.segments - 1;
    sv_played r = block[kind](c->setup, c->heights, n, c->stiffness, n, v->first, n, v->second, n, v->contact, n, v->turn, v->finger,
                              forces, 2 * STEPS, v->samples, 2 * STEPS);
    if (r.refusal)
        fail("a block is refused");
    v->turn = r.turn;
    v->finger = r.finger;
}

static void double_steps(scene *c, int kind, double_voice *v, const int32_t *forces)
{
    for (int j = 0; j < STEPS; j++) {
        double_stepped r = double_step[kind](c->setup, c->double_heights, c->double_stiffness, v->first, v->second, v->contact, v->turn, v->finger,
                                             forces[2 * j], forces[2 * j + 1]);
        v->turn = r.turn;
        v->finger = r.finger;
        v->samples[2 * j] = r.frame.bridge;
        v->samples[2 * j + 1] = r.frame.neck;
    }
}

static void double_blocks(scene *c, int kind, double_voice *v, const int32_t *forces)
{
    double_played r = double_block[kind](c->setup, c->double_heights, c->double_stiffness, v->first, v->second, v->contact, v->turn, v->finger,
                                         forces, STEPS, v->samples);
    v->turn = r.turn;
    v->finger = r.finger;
}

/* One stretch of one voice; how long a step took. */
static double stretch(scene *c, int blocks, int kind, const int32_t *forces)
{
    double start = nanoseconds();
    if (kind < WHOLE)
        (blocks ? whole_block : whole_steps)(c, kind, &c->whole[blocks][kind], forces);
    else
        (blocks ? double_blocks : double_steps)(c, kind - WHOLE, &c->real[blocks][kind - WHOLE], forces);
    return (nanoseconds() - start) / STEPS;
}

static double booked_stretch(scene *c, const int32_t *forces)
{
    double start = nanoseconds();
    booked_steps(c, forces);
    return (nanoseconds() - start) / STEPS;
}

static void compare(scene *c)
{
    const voice *product = &c->whole[0][0];
    for (int k = 1; k < 2 * WHOLE; k++)
        if (memcmp(product, &c->whole[k / WHOLE][k % WHOLE], sizeof *product))
            fail("the whole-number voices differ");
    if (memcmp(product, &c->booked, sizeof *product))
        fail("the booked voice differs");
    for (int k = 0; k < 2 * REAL; k++)
        for (int j = 0; j < 2 * STEPS; j++) {
            c->loudest = fmax(c->loudest, fabs(product->samples[j]));
            c->apart = fmax(c->apart, fabs(product->samples[j] - c->real[k / REAL][k % REAL].samples[j]));
        }
}

static void count_pressed(scene *c)
{
    const voice *v = &c->whole[0][0];
    const double_voice *d = &c->real[0][0];
    const int32_t *newest = v->turn ? v->second : v->first;
    const double *double_newest = d->turn ? d->second : d->first;
    for (size_t i = 0; i < c->setup.segments - 1; i++) {
        c->pressed += newest[i] < c->heights[i];
        c->double_pressed += double_newest[i] < c->double_heights[i];
        c->looked_at++;
    }
}

static void keep_best(double *best, double taken, int timed)
{
    if (timed && taken < *best)
        *best = taken;
}

/* One stretch of every voice. */
static void round_of(scene *c, int phase, int timed)
{
    int32_t forces[2 * STEPS];
    forces_of(c, phase, forces);
    for (int k = 0; k < 2 * KINDS; k++)
        keep_best(&c->best[k / KINDS][k % KINDS][phase], stretch(c, k / KINDS, k % KINDS, forces), timed);
    keep_best(&c->best_booked[phase], booked_stretch(c, forces), timed);
    compare(c);
    count_pressed(c);
}

/* A neck over which a string pulled down at `lowest` lies bent: on each side a parabola. */
static int32_t arch(uint32_t segments, uint32_t lowest, uint32_t place)
{
    double t = place < lowest ? (double)place / lowest : (double)(segments - place) / (segments - lowest);
    return (int32_t)(-ARCH * t * t);
}

static int32_t height(sv_setup setup, enum contacts contacts, uint32_t place)
{
    uint32_t p = setup.finger_place, away = place > p ? place - p : p - place;
    if (contacts == STRUCK && place % 3 > 0)
        return 0;
    if (contacts == STOPPED && away <= setup.segments / 32)
        return arch(setup.segments, p, place);
    if (contacts == PRESSED && place % 3 > 0)
        return arch(setup.segments, setup.pluck_place, place);
    return -1000000;
}

static void lay_out(scene *c, uint32_t segments, enum contacts contacts)
{
    int32_t finger = contacts == STOPPED ? 0 : 100000;
    memset(c, 0, sizeof *c);
    c->setup = (sv_setup){segments, 2000, 100, 50, 20, 500, 4096, segments / 3, segments / 2, segments - 2, segments * 2 / 3};
    c->contacts = contacts;
    for (size_t i = 0; i < segments - 1; i++) {
        c->double_heights[i] = c->heights[i] = height(c->setup, contacts, (uint32_t)i + 1);
        c->double_stiffness[i] = c->stiffness[i] = 3000;
    }
    for (int blocks = 0; blocks < 2; blocks++)
        for (int k = 0; k < KINDS; k++) {
            if (k < WHOLE)
                c->whole[blocks][k].finger = (sv_finger){finger, finger, 0};
            else
                c->real[blocks][k - WHOLE].finger = (double_finger){finger, finger, 0};
            for (int phase = 0; phase < CYCLE; phase++)
                c->best[blocks][k][phase] = c->best_booked[phase] = 1e18;
        }
    c->booked.finger = (sv_finger){finger, finger, 0};
}

/* Plays the scenes in turn, a cycle of each, so that a disturbance meets all of them. */
static void play(scene *scenes)
{
    for (int cycle = -WARM_UP; cycle < CYCLES; cycle++)
        for (int i = 0; i < SCENES * SIZES; i++)
            for (int phase = 0; phase < CYCLE; phase++)
                round_of(&scenes[i], phase, cycle >= 0);
    for (int i = 0; i < SIZES; i++)
        if (scenes[i].apart > TOLERANCE * scenes[i].loudest)
            fail("double precision is too far from the product");
}

/* Over a cycle, of each stretch's best time. */
static double mean(const double *best)
{
    double sum = 0;
    for (int phase = 0; phase < CYCLE; phase++)
        sum += best[phase];
    return sum / CYCLE;
}

/* A row: the times, and the product's ratios to the others; of single steps the booked one too, and its ratio to the product's. */
static void row(const scene *c, int blocks)
{
    double product = mean(c->best[blocks][0]), booked = mean(c->best_booked);
    printf("| %u | %s | %.0f %% |", c->setup.segments, names[c->contacts], 100.0 * c->pressed / c->looked_at);
    for (int k = 0; k < KINDS; k++)
        printf(" %.0f |", mean(c->best[blocks][k]));
    for (int k = 1; k < KINDS; k++)
        printf(" %.2f |", product / mean(c->best[blocks][k]));
    if (!blocks)
        printf(" %.0f | %.2f |", booked, booked / product);
    printf("\n");
}

static void table(const scene *scenes, int blocks)
{
    printf("%s\n\n| N | scene | pressed | product, ns | C -O2 | C -O3 | double -O2 | double -O3 | ratio to C -O2 | to C -O3 | to double -O2 | to double -O3 |%s\n"
           "|---|---|---|---|---|---|---|---|---|---|---|---|%s\n", blocks ? "A step in a block of 64:" : "A step by itself:",
           blocks ? "" : " booked, ns | ratio to a step |", blocks ? "" : "---|---|");
    for (int i = 0; i < SCENES * SIZES; i++)
        row(&scenes[i], blocks);
    printf("\n");
}

/* How near double precision comes: the largest distances over all scenes. */
static void nearness(const scene *scenes)
{
    double apart = 0, shares = 0;
    for (int i = 0; i < SCENES * SIZES; i++)
        if (scenes[i].contacts == FREE)
            apart = fmax(apart, scenes[i].apart / scenes[i].loudest);
        else
            shares = fmax(shares, fabs((double)(scenes[i].pressed - scenes[i].double_pressed) / scenes[i].looked_at));
    printf("Double precision beside the product: samples of a free string at most %.2f %% of the loudest apart; in contact, the shares of points pressed at "
           "most %.1f %% of all points apart.\n", 100 * apart, 100 * shares);
}

int main(void)
{
    static const uint32_t sizes[SIZES] = {16, 32, 64, 90, 128};
    static scene scenes[SCENES * SIZES]; /* those of a kind together */
    for (int i = 0; i < SCENES * SIZES; i++)
        lay_out(&scenes[i], sizes[i % SIZES], i / SIZES);
    play(scenes);
    table(scenes, 0);
    table(scenes, 1);
    nearness(scenes);
    return 0;
}
