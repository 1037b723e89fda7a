/* How much stack a call takes: each function is called on a stack of its own that was filled with a pattern, and what is overwritten is measured. */
#include <stdint.h>
#include <stdio.h>
#include <stdlib.h>
#include <string.h>
#include <ucontext.h>
#include "../include/string_voice.h"

enum { POINTS = 127, STEPS = 64, ROOM = 65536, PATTERN = 0xA5 };

static _Alignas(64) unsigned char room[ROOM];
static ucontext_t here, there;

static const sv_setup setup = {128, 2000, 100, 50, 20, 500, 4096, 42, 64, 126, 85};
static const sv_finger finger = {1000, 1000, 0};
static const sv_book book;
static int32_t board[POINTS], heights[POINTS], first[POINTS], second[POINTS], contact[POINTS], forces[2 * STEPS];
static uint16_t stiffness[POINTS];
static float samples[2 * STEPS];
static volatile uint32_t refusal;

static void nothing(void) {}
static void check_setup(void) { refusal = sv_check_setup(setup); }
static void bend(void) { refusal = sv_bend(setup, 2500).refusal; }
static void slide(void) { refusal = sv_slide(setup, 44).refusal; }
static void lay_neck(void) { refusal = sv_lay_neck(setup, board, POINTS, 3000, NULL, 0, 0, 0, heights, POINTS, stiffness, POINTS); }
static void fresh_start(void) { refusal = sv_fresh_start(setup, first, POINTS, second, POINTS, contact, POINTS, 1000, 1000).refusal; }
static void newest(void) { refusal = sv_newest(0) == 0 ? 0 : 1; }
static void read_place(void) { refusal = sv_read_place(setup, heights, POINTS, first, POINTS, second, POINTS, 0, 42).refusal; }

static void step(void)
{
    refusal = sv_step(setup, heights, POINTS, stiffness, POINTS, first, POINTS, second, POINTS, contact, POINTS, 0, finger, 9000000, 0).refusal;
}

static void step_booked(void)
{
    refusal = sv_step_booked(setup, heights, POINTS, stiffness, POINTS, first, POINTS, second, POINTS, contact, POINTS, 0, finger, 9000000, 0, book).refusal;
}

static void bend_booked(void) { refusal = sv_bend_booked(setup, 2500, first, POINTS, second, POINTS, contact, POINTS, 0, finger, book).refusal; }

static void block(void)
{
    refusal = sv_play_block(setup, heights, POINTS, stiffness, POINTS, first, POINTS, second, POINTS, contact, POINTS, 0, finger, forces, 2 * STEPS, samples, 2 * STEPS).refusal;
}

/* The bytes from the top of the stack down to the lowest one that the call wrote. */
static size_t used_by(void (*call)(void))
{
    memset(room, PATTERN, ROOM);
    getcontext(&there);
    there.uc_stack.ss_sp = room;
    there.uc_stack.ss_size = ROOM;
    there.uc_link = &here;
    makecontext(&there, call, 0);
    swapcontext(&here, &there);
    size_t lowest = 0;
    while (lowest < ROOM && room[lowest] == PATTERN)
        lowest++;
    return ROOM - lowest;
}

int main(void)
{
    static const struct {
        const char *name;
        void (*call)(void);
    } calls[] = {{"sv_check_setup", check_setup}, {"sv_bend", bend}, {"sv_slide", slide}, {"sv_lay_neck", lay_neck}, {"sv_fresh_start", fresh_start},
                 {"sv_newest", newest}, {"sv_step", step}, {"sv_step_booked", step_booked}, {"sv_bend_booked", bend_booked}, {"sv_play_block", block},
                 {"sv_read_place", read_place}};
    size_t none = used_by(nothing);
    printf("| function | stack, bytes |\n|---|---|\n");
    for (size_t i = 0; i < sizeof calls / sizeof *calls; i++) {
        refusal = UINT32_MAX;
        size_t used = used_by(calls[i].call) - none;
        if (refusal != 0) {
            fprintf(stderr, "%s was refused with %u\n", calls[i].name, refusal);
            return 1;
        }
        printf("| `%s` | %zu |\n", calls[i].name, used);
    }
    return 0;
}
