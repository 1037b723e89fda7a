/* Calls all functions of the library with drawn arguments, one by one and in lists, until there are enough calls; then prints what they answered. */
#include <stdio.h>
#include <stdlib.h>
#include <time.h>
#include "booked.h"
#include "bounds.h"
#include "draw.h"
#include "fault.h"
#include "list.h"
#include "mirror.h"
#include "report.h"
#include "rules.h"
#include "ties.h"

static lent board, frets, heights, stiffness, first, second, contact, forces, samples, vast;
static voice v = {.heights = &heights, .stiffness = &stiffness, .first = &first, .second = &second, .contact = &contact};
static neck_plan plan = {.board = &board, .frets = &frets};

static void open_buffers(void)
{
    lent_open(&board, "board", sizeof(int32_t));
    lent_open(&frets, "frets", sizeof(uint32_t));
    lent_open(&heights, "heights", sizeof(int32_t));
    lent_open(&stiffness, "stiffness", sizeof(uint16_t));
    lent_open(&first, "first", sizeof(int32_t));
    lent_open(&second, "second", sizeof(int32_t));
    lent_open(&contact, "contact", sizeof(int32_t));
    lent_open(&forces, "forces", sizeof(int32_t));
    lent_open(&samples, "samples", sizeof(float));
    lent_open_vast(&vast, "a vast buffer");
    lent_watch();
}

/* A buffer that is only written, and holds anything before. */
static void place_for_writing(lent *buffer, size_t points, unsigned changes)
{
    lent_place(buffer, draw_length(points, changes));
    lent_settle(buffer);
}

static uint32_t lay_neck(size_t points, unsigned changes)
{
    draw_plan(&plan, points, changes);
    place_for_writing(&heights, points, changes);
    place_for_writing(&stiffness, points, changes);
    return call_lay_neck(v.setup, &plan, &heights, &stiffness);
}

static uint32_t fresh_start(size_t points, unsigned changes)
{
    int32_t height, older_height;
    place_for_writing(&first, points, changes);
    place_for_writing(&second, points, changes);
    place_for_writing(&contact, points, changes);
    draw_start(&height, &older_height, changes);
    return call_fresh_start(&v, height, older_height);
}

/* Answers the points that the lengths go by. */
static size_t draw_voice(unsigned changes)
{
    size_t points = draw_setup(&v.setup, changes);
    draw_neck(&v, points, changes);
    draw_state(&v, points, changes);
    return points;
}

static void single_setup(void)
{
    draw_setup(&v.setup, draw_changes(SETUP));
    call_check_setup(v.setup);
}

/* The old tension, which is not examined, is often out of order. */
static void single_bend(void)
{
    unsigned changes = draw_changes(SETUP | TENSION);
    draw_setup(&v.setup, changes);
    uint32_t tension = draw_tension(&v.setup, changes);
    if (one_in(2))
        v.setup.tension = draw_tension(&v.setup, TENSION);
    call_bend(&v, tension);
}

/* And so is the old place. */
static void single_slide(void)
{
    unsigned changes = draw_changes(SETUP | PLACE);
    size_t points = draw_setup(&v.setup, changes);
    uint32_t place = draw_place(points, changes);
    if (one_in(2))
        v.setup.finger_place = draw_place(points, PLACE);
    call_slide(&v, place);
}

/* Strings, which are const, may be one buffer. */
static void single_bend_booked(void)
{
    unsigned changes = draw_changes(SETUP | LENGTH | STATE | TENSION | BOOK);
    draw_state(&v, draw_setup(&v.setup, changes), changes);
    uint32_t tension = draw_tension(&v.setup, changes);
    voice bent = v;
    bent.book = draw_book(changes);
    if (one_in(2))
        bent.setup.tension = draw_tension(&v.setup, TENSION);
    if (one_in(16))
        bent.second = bent.first;
    call_bend_booked(&bent, tension);
}

static void single_neck(void)
{
    unsigned changes = draw_changes(SETUP | LENGTH | HEIGHT | FRETS | TIP);
    lay_neck(draw_setup(&v.setup, changes), changes);
}

static void single_start(void)
{
    unsigned changes = draw_changes(SETUP | LENGTH | STATE);
    fresh_start(draw_setup(&v.setup, changes), changes);
}

/* Booked with any book in half of the draws. */
static void make_step(int32_t pluck, int32_t finger_force, unsigned changes)
{
    sv_frame frame;
    v.book = draw_book(changes);
    if (one_in(2))
        call_step(&v, pluck, finger_force, &frame);
    else
        call_step_booked(&v, pluck, finger_force);
}

static void single_step(void)
{
    unsigned changes = draw_changes(SETUP | LENGTH | HEIGHT | STATE | FORCES | BOOK), of_pluck = one_in(2) ? changes : 0;
    draw_voice(changes);
    int32_t pluck = draw_force(&v.setup, FORCE, of_pluck), finger_force = draw_force(&v.setup, FORCE, changes & ~of_pluck);
    make_step(pluck, finger_force, changes);
}

/* Z and the finger's mass are even, as they are where a half of what divides a force is a whole number. */
static void single_tie(void)
{
    int32_t pluck, finger_force;
    size_t points = draw_setup(&v.setup, 0);
    v.setup.plain -= v.setup.plain % 2;
    v.setup.finger_mass += v.setup.finger_mass % 2;
    if (one_in(2))
        v.setup.pluck_place = v.setup.finger_place;
    draw_neck(&v, points, 0);
    draw_state(&v, points, 0);
    draw_tie(&v, &pluck, &finger_force);
    make_step(pluck, finger_force, 0);
}

static void single_pressed(void)
{
    draw_pressed(&v);
    int32_t pluck = draw_force(&v.setup, 200000, 0), finger_force = draw_force(&v.setup, 200000, 0);
    make_step(pluck, finger_force, 0);
}

static void single_block(void)
{
    unsigned changes = draw_changes(SETUP | LENGTH | HEIGHT | STATE | FORCES | COUNTS);
    draw_voice(changes);
    draw_forces(&forces, &samples, &v.setup, 40, (uint32_t)FORCE >> draw_below(31), changes);
    call_play_block(&v, &forces, &samples);
}

static void single_bound(void)
{
    draw_voice(0);
    int32_t pluck = draw_force(&v.setup, FORCE, 0), finger_force = draw_force(&v.setup, FORCE, 0);
    meet_bound(&v, pluck, finger_force);
}

static void single_newest(void) { call_newest(draw_turn()); }

static void single_reading(void)
{
    unsigned changes = draw_changes(SETUP | LENGTH | HEIGHT | STATE | PLACE);
    uint32_t place = draw_place(draw_voice(changes), changes);
    voice read = v;
    if (one_in(16))
        read.second = read.first; /* both are const, so they may be one buffer */
    call_read_place(&read, place);
}

/* In place of one buffer that is in order, one of 2^32 elements more: the lengths differ above their 32nd bit alone. Of samples the lower 32 bits may be
   too few, and the block is played all the same. */
static void single_vast(void)
{
    size_t points = draw_voice(0);
    voice given = v;
    neck_plan given_plan = plan;
    draw_plan(&given_plan, points, 0);
    draw_forces(&forces, &samples, &v.setup, 4, FORCE, 0);
    lent *of_forces = &forces, *of_samples = &samples;
    lent **buffers[] = {&given.heights, &given.stiffness, &given.first, &given.second, &given.contact, &given_plan.board, &of_forces, &of_samples};
    lent **one = buffers[draw_below(8)];
    lent_place_vast(&vast, one == &of_samples ? draw_below((uint32_t)samples.length + 1) : (*one)->length);
    *one = &vast;
    sv_frame frame;
    switch (draw_below(7)) {
    case 0: call_lay_neck(given.setup, &given_plan, given.heights, given.stiffness); break;
    case 1: call_fresh_start(&given, 0, 0); break;
    case 2: call_read_place(&given, draw_place(points, 0)); break;
    case 3: call_step(&given, 0, 0, &frame); break;
    case 4: call_step_booked(&given, 0, 0); break;
    case 5: call_bend_booked(&given, draw_tension(&given.setup, 0)); break;
    default: call_play_block(&given, of_forces, of_samples);
    }
}

/* The next call of a list, with forces up to a size; its refusal. Without forces bends are mostly such as are refused. A block keeps no book: in a list that
   is booked a step with another book stands in its place. */
static uint32_t next_of_list(size_t points, uint32_t greatest, int booked)
{
    unsigned changes = one_in(16) ? FORCES : 0;
    int32_t pluck = draw_force(&v.setup, greatest, changes), finger_force = draw_force(&v.setup, greatest, 0);
    switch (draw_below(16)) {
    case 0:
        return call_read_place(&v, draw_place(points, 0));
    case 1:
        call_newest(v.turn);
        return 0;
    case 2:
        if (booked) {
            list_other_book(&v, draw_book(BOOK), pluck, finger_force);
            return 0;
        }
        draw_forces(&forces, &samples, &v.setup, 24, greatest, changes);
        return call_play_block(&v, &forces, &samples);
    case 3:
        return list_bend(&v, draw_tension(&v.setup, one_in(4) || (greatest == 0 && !one_in(8)) ? TENSION : 0));
    case 4:
        return list_slide(&v, draw_place(points, one_in(4) ? PLACE : 0));
    default:
        return list_step(&v, pluck, finger_force);
    }
}

/* A voice from its neck and its fresh start on; a quarter of them without forces, then mostly without loss; half of them booked. Once it leaves its range it
   may go on from there, or end. */
static void list_of_calls(void)
{
    size_t points = draw_setup(&v.setup, 0);
    int booked = one_in(2);
    uint32_t greatest = one_in(4) ? 0 : (uint32_t)FORCE >> draw_below(18), calls = (one_in(8) ? 400 : 8) + draw_below(56), refusal = 0;
    if (greatest == 0 && !one_in(4))
        v.setup.viscous = v.setup.plain = 0;
    if (lay_neck(points, 0) || fresh_start(points, 0))
        fault("the neck or the fresh start of a list was refused");
    list_begin(&v, booked);
    for (; calls > 0 && !(refusal >= 13 && one_in(3)); calls--) {
        refusal = next_of_list(points, greatest, booked);
        list_check(&v);
        if (v.turn != 0 && one_in(4))
            v.turn = 1 + draw_below(UINT32_MAX);
    }
}

static void two_runs(void) { mirrored_runs(&v); }

/* Each kind with its share of 64 draws. A list makes some 80 calls, two mirrored runs some 40, the search for a bound up to 34. */
static const struct {
    void (*calls)(void);
    uint32_t share;
} kinds[] = {{single_step, 12},       {single_reading, 7}, {single_neck, 6}, {single_bound, 6}, {single_pressed, 5}, {single_tie, 4},    {single_block, 4}, {single_start, 4},
             {single_bend_booked, 4}, {single_setup, 3},   {single_bend, 3}, {single_slide, 2}, {single_vast, 1},    {single_newest, 1}, {two_runs, 1},     {list_of_calls, 1}};

static void draw_calls(void)
{
    uint32_t drawn = draw_below(64), kind = 0;
    while (drawn >= kinds[kind].share)
        drawn -= kinds[kind++].share;
    kinds[kind].calls();
}

static double seconds(void)
{
    struct timespec t;
    clock_gettime(CLOCK_MONOTONIC, &t);
    return (double)t.tv_sec + 1e-9 * (double)t.tv_nsec;
}

static unsigned long long number(const char *text)
{
    char *end;
    unsigned long long value = strtoull(text, &end, 10);
    if (*text < '0' || *text > '9' || *end) {
        fprintf(stderr, "fuzz: '%s' is not a number\n", text);
        exit(2);
    }
    return value;
}

int main(int count, char **texts)
{
    if (count != 3) {
        fprintf(stderr, "fuzz: the number of calls and the seed are missing\n");
        return 2;
    }
    unsigned long long enough = number(texts[1]), seed = number(texts[2]);
    double start = seconds();
    draw_from_seed(seed);
    watch_calls(seed);
    calls_open();
    mirror_open();
    open_buffers();
    while (calls_made < enough)
        draw_calls();
    print_report();
    printf("seed %llu, %.1f s\n", seed, seconds() - start);
    if (!all_met())
        return 1;
    printf("fuzz: %llu calls, 0 faults\n", calls_made);
    return 0;
}
