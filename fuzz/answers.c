/* Answers of the library beside those that are expected of it. */
#include "answers.h"
#include <string.h>
#include "fault.h"

enum { OF_SETUP = 31 << 1, OF_STATE = 1 << 6 | 1 << 7 | 1 << 11, OF_STEP = 1 << 12 | 1 << 13 | 1 << 14 };
function_tally functions[FUNCTIONS] = {
    {.name = "sv_check_setup", .refusals = OF_SETUP},
    {.name = "sv_bend", .refusals = OF_SETUP},
    {.name = "sv_slide", .refusals = OF_SETUP},
    {.name = "sv_lay_neck", .refusals = OF_SETUP | 1 << 6 | 1 << 7 | 1 << 8 | 1 << 9},
    {.name = "sv_fresh_start", .refusals = OF_SETUP | 1 << 6 | 1 << 10},
    {.name = "sv_step", .refusals = OF_SETUP | OF_STATE | OF_STEP},
    {.name = "sv_step_booked", .refusals = OF_SETUP | OF_STATE | OF_STEP | 1 << 16 | 1 << 17},
    {.name = "sv_bend_booked", .refusals = OF_SETUP | 1 << 6 | 1 << 11 | 1 << 17},
    {.name = "sv_play_block", .refusals = OF_SETUP | OF_STATE | OF_STEP | 1 << 15},
    {.name = "sv_newest", .refusals = 0},
    {.name = "sv_read_place", .refusals = OF_SETUP | OF_STATE},
};
static function_tally *current;

void begin(int function, sv_setup setup)
{
    current = &functions[function];
    next_call(current->name, setup);
}

void same_refusal(uint32_t answered, uint32_t expected)
{
    same("refusal", answered, expected);
    current->answered[answered]++;
}

void same(const char *what, long long answered, long long expected)
{
    if (answered != expected)
        fault("%s %lld, expected %lld", what, answered, expected);
}

void same_bits(const char *what, const void *answered, const void *expected, size_t bytes)
{
    uint64_t bits[2] = {0, 0};
    memcpy(&bits[0], answered, bytes);
    memcpy(&bits[1], expected, bytes);
    if (bits[0] != bits[1])
        fault("%s of bits %llx, expected %llx", what, (unsigned long long)bits[0], (unsigned long long)bits[1]);
}

void same_finger(sv_finger answered, sv_finger expected)
{
    same("the finger's newer height", answered.newer, expected.newer);
    same("the finger's older height", answered.older, expected.older);
    same("the finger's contact variable", answered.contact, expected.contact);
}

void same_frame(sv_frame answered, sv_frame expected)
{
    same_bits("the frame's bridge", &answered.bridge, &expected.bridge, sizeof expected.bridge);
    same_bits("the frame's neck", &answered.neck, &expected.neck, sizeof expected.neck);
}

void same_setup(sv_setup answered, sv_setup expected)
{
    same("segments", answered.segments, expected.segments);
    same("tension", answered.tension, expected.tension);
    same("stiffness", answered.stiffness, expected.stiffness);
    same("viscous loss", answered.viscous, expected.viscous);
    same("plain loss", answered.plain, expected.plain);
    same("the finger's stiffness", answered.finger_stiffness, expected.finger_stiffness);
    same("the finger's mass", answered.finger_mass, expected.finger_mass);
    same("the finger's place", answered.finger_place, expected.finger_place);
    same("the pluck's place", answered.pluck_place, expected.pluck_place);
    same("the bridge pickup's place", answered.bridge_place, expected.bridge_place);
    same("the neck pickup's place", answered.neck_place, expected.neck_place);
}

static void same_column(const char *name, sv_wide answered, sv_wide expected)
{
    if (answered.high != expected.high || answered.low != expected.low)
        fault("the book's column of %s %016llx %016llx, expected %016llx %016llx", name, (unsigned long long)answered.high, (unsigned long long)answered.low,
              (unsigned long long)expected.high, (unsigned long long)expected.low);
}

void same_book(sv_book answered, sv_book expected)
{
    same_column("stored energy", answered.stored, expected.stored);
    same_column("work", answered.work, expected.work);
    same_column("loss", answered.loss, expected.loss);
    same_column("rounding work", answered.rounding, expected.rounding);
    same("the book's count", answered.count, expected.count);
}
