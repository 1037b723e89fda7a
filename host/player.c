/* The player of the phrase: its notes, and the forces of finger and pluck, the hand on the string and the fader at each time. */
#include <math.h>
#include "player.h"

const note notes[NOTES] = {
    {"A2", "open", 0.3, 0, -1.2, 0, 0},
    {"C3", "fret 3", 2.5, 3, -1.0, 0, 0},
    {"E3", "fret 7", 4.1, 7, -0.9, 0, 0},
    {"A3", "fret 12", 5.7, 12, -0.9, 0, 0},
    {"E3", "bend", 7.5, 7, -0.9, 200, 0}, /* to F sharp, and back */
    {"C3", "slide", 9.7, 3, -1.0, 0, 7},  /* to E3 */
    {"E3", "tapped", 11.5, 7, 0, 0, 0},
    {"C3", "tapped", 13.0, 3, 0, 0, 0},
    {"A2", "rattle", 14.7, 0, 3.0, 0, 0}, /* pulled away from the neck, so that it strikes the frets as it comes back */
    {"A2", "rattle", 15.3, 0, 2.8, 0, 0},
    {"A2", "rattle", 15.9, 0, 3.3, 0, 0},
};

/* What is done when, in seconds before a note's start. */
#define HAND_DOWN 0.24 /* a hand silences the note before it */
#define FADER 0.20     /* the fader is drawn down */
#define FRESH 0.14     /* a fresh start */
#define PRESSING 0.13  /* the finger begins to press; a tapping finger comes down at the start itself */
#define HAND_UP 0.025
#define PULLING 0.02   /* the string is pulled, until it is let go at the start */
#define LAST_HAND 0.40 /* before the end of the phrase */

/* And in seconds after it. */
#define BENDING 0.3      /* the string is bent */
#define LETTING_BACK 1.0 /* and let back */
#define SLIDING 0.5      /* the finger slides to another fret */

/* How long it takes, s. */
#define FADER_TIME 0.05
#define PRESS_TIME 0.09
#define TAP_TIME 0.01
#define LETTING_GO_TIME 0.00025
#define BEND_TIME 0.3 /* 207 blocks, before each of which L changes by two units at the most */
#define SLIDE_TIME 0.2

#define HAND 300.0   /* the plain loss of the hand, 1/s */
#define BEHIND 2     /* places from the finger to its fret */
#define AWAY 4e-3    /* the height of a finger that is up, m */
#define DEEP -8.5e-3 /* the height to which it is led in pressing; string and fret hold it up near -2.9 mm, against 4.7 N */
#define SPRING 850.0 /* how it is led, N/m */
#define DAMPER 3.5   /* N s/m; from some 5 on, speeds that are a block old drive the finger more than they slow it down */

/* From 0 to 1 without a corner. */
static double ease(double x) { return x <= 0 ? 0 : x >= 1 ? 1 : 0.5 - 0.5 * cos(acos(-1) * x); }

const note *note_at(double seconds)
{
    const note *n = notes;
    while (n + 1 < notes + NOTES && seconds >= n[1].start - FRESH)
        n++;
    return n;
}

double note_end(const note *n) { return n + 1 < notes + NOTES ? n[1].start - HAND_DOWN : PHRASE - LAST_HAND; }

/* Of the finger; it is away from the open string. */
static uint32_t place_behind(uint32_t fret) { return fret ? fret_places[fret - 1] - BEHIND : fret_places[0]; }

/* Place by place. A slide leaves the finger's height and contact variable as they are, and the string is higher or lower at the new place: a pressing finger
   comes to sit some 0.1 mm deeper with each. */
static uint32_t finger_place(const note *n, double seconds)
{
    double from = place_behind(n->fret), to = n->slide ? place_behind(n->slide) : from;
    return (uint32_t)lrint(from + (to - from) * ease((seconds - n->start - SLIDING) / SLIDE_TIME));
}

/* In cents. */
static double bend(const note *n, double seconds)
{
    return n->bend * (ease((seconds - n->start - BENDING) / BEND_TIME) - ease((seconds - n->start - LETTING_BACK) / BEND_TIME));
}

sv_setup player_setup(const note *n, double seconds)
{
    int hand_is_down = seconds < n->start - HAND_UP || seconds >= note_end(n);
    return instrument_setup(finger_place(n, seconds), bend(n, seconds), hand_is_down ? HAND : 0);
}

int32_t player_finger_height(void) { return units_of_metres(AWAY); }

static double pluck_force(const note *n, double seconds)
{
    return n->pull * (seconds < n->start ? ease((seconds - n->start + PULLING) / PULLING) : 1 - ease((seconds - n->start) / LETTING_GO_TIME));
}

/* The height to which the finger is led. */
static double finger_aim(const note *n, double seconds)
{
    double after = seconds - n->start, pressed = n->pull ? ease((after + PRESSING) / PRESS_TIME) : ease(after / TAP_TIME);
    return n->fret ? AWAY + (DEEP - AWAY) * pressed : AWAY;
}

/* The finger is led as by a spring and a damper, since the scheme's finger has no loss of its own. The aim moves with every step; height and speed are those
   before the block. */
void player_forces(const note *n, double seconds, sv_finger finger, size_t steps, int32_t *forces)
{
    double height = metres_of_units(finger.newer), speed = metres_of_units((double)finger.newer - finger.older) * RATE;
    for (size_t j = 0; j < steps; j++) {
        double at = seconds + (double)j / RATE;
        forces[2 * j] = units_of_newtons(pluck_force(n, at));
        forces[2 * j + 1] = units_of_newtons(SPRING * (finger_aim(n, at) - height) - DAMPER * speed);
    }
}

double player_fader(const note *n, double seconds) { return 1 - ease((seconds - note_end(n) - HAND_DOWN + FADER) / FADER_TIME); }
