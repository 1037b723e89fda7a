/* How long one step takes by what its contacts do: the product beside plain C of the same scheme. Each step starts from a state of its own, in which the
   string is free, or every point is pressed and its contact holds, pulls, or does either at random: then the processor cannot foretell which contact is dropped. */
#include <stdio.h>
#include <stdlib.h>
#include <string.h>
#include <time.h>
#include "../include/string_voice.h"

typedef sv_stepped step_function(sv_setup, const int32_t *, size_t, const uint16_t *, size_t, int32_t *, size_t, int32_t *, size_t, int32_t *, size_t,
                                 uint32_t, sv_finger, int32_t, int32_t);
step_function plain_step_o2;

enum { STATES = 64, ROUNDS = 400, WHOLE = 2, SIZES = 4 };
enum scene { FREE, HOLD, PULL, EITHER, SCENES };
static const char *const names[SCENES] = {"free", "every contact holds", "every contact pulls", "half of them pull, at random"};
static step_function *const step[WHOLE] = {sv_step, plain_step_o2};

typedef struct {
    int32_t first[127], second[127], contact[127];
} state;

static double nanoseconds(void)
{
    struct timespec t;
    clock_gettime(CLOCK_MONOTONIC, &t);
    return 1e9 * t.tv_sec + t.tv_nsec;
}

static uint32_t draw(uint32_t n)
{
    static uint32_t x = 1;
    x ^= x << 13;
    x ^= x >> 17;
    x ^= x << 5;
    return x % n;
}

/* A contact that pulls has a variable below 0 and a string that rises; one that holds the opposite. */
static void lay_out(state *s, size_t points, enum scene scene)
{
    for (size_t i = 0; i < points; i++) {
        int pulls = scene == PULL || (scene == EITHER && draw(2)), sign = pulls ? -1 : 1;
        s->first[i] = -1000 - (int32_t)draw(1000);
        s->second[i] = s->first[i] + sign * 2000;
        s->contact[i] = scene == FREE ? 0 : sign * 60000;
    }
}

/* The mean over the states, ns a step. */
static double steps(step_function *f, sv_setup setup, const int32_t *heights, const uint16_t *stiffness, const state *states)
{
    size_t n = setup.segments - 1;
    double taken = 0;
    for (int j = 0; j < STATES; j++) {
        state s = states[j];
        double start = nanoseconds();
        sv_stepped r = f(setup, heights, n, stiffness, n, s.first, n, s.second, n, s.contact, n, 0, (sv_finger){100000, 100000, 0}, 0, 0);
        taken += nanoseconds() - start;
        if (r.refusal)
            exit(printf("a step is refused with %u\n", r.refusal));
    }
    return taken / STATES;
}

static void row(uint32_t segments, enum scene scene)
{
    sv_setup setup = {segments, 2000, 100, 50, 20, 500, 4096, segments / 3, segments / 2, segments - 2, segments * 2 / 3};
    int32_t heights[127];
    uint16_t stiffness[127];
    static state states[STATES];
    double best[WHOLE] = {1e18, 1e18};
    for (int i = 0; i < 127; i++) {
        heights[i] = scene == FREE ? -1000000 : 0;
        stiffness[i] = 3000;
    }
    for (int round = 0; round < ROUNDS; round++) {
        for (int j = 0; j < STATES; j++)
            lay_out(&states[j], segments - 1, scene);
        for (int k = 0; k < WHOLE; k++) {
            double taken = steps(step[k], setup, heights, stiffness, states);
            best[k] = taken < best[k] ? taken : best[k];
        }
    }
    printf("| %u | %s | %.0f | %.0f | %.2f |\n", segments, names[scene], best[0], best[1], best[0] / best[1]);
}

int main(void)
{
    static const uint32_t sizes[SIZES] = {16, 64, 90, 128};
    printf("A step by itself, from drawn states, the clock's own time included:\n\n| N | contacts | product, ns | C -O2 | ratio |\n|---|---|---|---|---|\n");
    for (int scene = 0; scene < SCENES; scene++)
        for (int i = 0; i < SIZES; i++)
            row(sizes[i], (enum scene)scene);
    return 0;
}
