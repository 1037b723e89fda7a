/* The string voice for C: a guitar string seen from the side, its fretboard and frets and one stopping finger, stepped in whole numbers. Documents 01 and
   02 are the scope, and the numbers of refusals are theirs; docs/INTEGRATION.md says what to do about each.

   A voice is a setup, a neck and a state, all kept by the caller; the library keeps nothing between calls, allocates nothing and calls only memset and memcpy.
   Every function may be given any numbers and any lengths, and examines them. What it cannot examine is left to the caller:
   - a pointer points to as many elements as the length beside it says, and is aligned for its type; at length 0 it is not used and may be null;
   - buffers that are not const overlap no other buffer of the call. */
#ifndef STRING_VOICE_H
#define STRING_VOICE_H

#include <stddef.h>
#include <stdint.h>

#ifdef __cplusplus
extern "C" {
#endif

/* 01, 'Setup': what stays the same while a voice plays, apart from bends and slides. Places are counted from the nut, 0, to the bridge, N; buffers hold the points 1 to N - 1. */
typedef struct {
    uint32_t segments;         /* N, 2 to 128; neck, string and contact buffers are N - 1 long */
    uint32_t tension;          /* L, 1 to 4096 */
    uint32_t stiffness;        /* M, 0 to 4096: the string's own stiffness against bending */
    uint32_t viscous;          /* S, viscous loss, 0 to 4096 */
    uint32_t plain;            /* Z, plain loss, 0 to 4096; L + 4M + 2S is at most 4096 */
    uint16_t finger_stiffness; /* K, any 16 bits */
    uint32_t finger_mass;      /* m, 1 to 1,048,576; a string point has mass 4096 */
    uint32_t finger_place;     /* p, 1 to N - 1, as all places; places may coincide */
    uint32_t pluck_place;      /* e, where the pluck force acts */
    uint32_t bridge_place;     /* what the bridge pickup hears */
    uint32_t neck_place;       /* what the neck pickup hears */
} sv_setup;

/* 01, 'One step': the finger. Each step is given the finger that the call before it gave. */
typedef struct {
    int32_t newer;   /* w, its newer height, -1,048,576 to 1,048,576 */
    int32_t older;   /* w', its older height, in the same range */
    int32_t contact; /* its contact variable, -67,108,864 to 67,108,864 */
} sv_finger;

/* 01, 'Playing a block': a pickup frame. */
typedef struct {
    float bridge; /* the new displacement at bridge_place, divided by 1,048,576; exact */
    float neck;   /* the one at neck_place */
} sv_frame;

/* 02, item 6: a signed number of 128 bits, two's complement, high word first: high * 2^64 + low, less 2^128 where the top bit of high is set. */
typedef struct {
    uint64_t high, low;
} sv_wide;

/* 02, item 6: an energy book, kept beside the voice. A fresh start gives one, and booked steps and bends give the next. Any book may be passed: its words are examined
   only as 16 and 17 say. */
typedef struct {
    sv_wide stored;   /* the stored energy, worked out from the state; each column between -2^120 and 2^120 where a call accepts it */
    sv_wide work;     /* of the forces and of bends */
    sv_wide loss;
    sv_wide rounding; /* the rounding work: stored = what it was at the fresh start + work - loss + rounding, exactly */
    uint32_t count;   /* of accepted steps */
} sv_book;

/* Examines a setup: 0 if it is accepted, otherwise 1 to 5. Every other function examines its setup in the same way. */
uint32_t sv_check_setup(sv_setup setup);

/* What a bend and a slide answer. */
typedef struct {
    uint32_t refusal; /* 0, or 1 to 5 */
    sv_setup setup;   /* the new setup; after a refusal the one passed in */
} sv_changed;

/* A bend: the setup with another tension L, for the calls that follow. Examined as a setup is, with the new tension in place of the old, which is not examined. */
sv_changed sv_bend(sv_setup setup, uint32_t tension); /* L, 1 to 4096, L + 4M + 2S at most 4096 */

/* A slide: the setup with the finger at another place. Examined in the same way; the finger's heights and contact variable stay the caller's. */
sv_changed sv_slide(sv_setup setup, uint32_t place); /* p, 1 to N - 1 */

/* Lays the neck: writes the height and the stiffness of each point, or answers the refusal (1 to 5, 6, 7, 8 or 9) and writes nothing. 0 is accepted. */
uint32_t sv_lay_neck(sv_setup setup,                                    /* of which only N counts, once it is accepted */
                     const int32_t *board, size_t board_length,         /* the board's height at each point, -1,048,576 to 0 */
                     uint16_t board_stiffness,                          /* of the whole board */
                     const uint32_t *frets, size_t frets_length,        /* up to 24 places from 1 to N - 1, strictly increasing */
                     int32_t tip,                                       /* the height of every fret: at most 0, and not below the board there */
                     uint16_t fret_stiffness,                           /* of every fret */
                     int32_t *heights, size_t heights_length,           /* written: the tip at a fret's point, the board's height elsewhere */
                     uint16_t *stiffness, size_t stiffness_length);     /* written: the fret's or the board's stiffness */

/* What a fresh start answers. */
typedef struct {
    uint32_t refusal; /* 0, or 1 to 5, 6 or 10 */
    uint32_t turn;    /* 0 */
    sv_finger finger; /* at its two heights, contact variable 0; all 0 after a refusal */
    sv_book book;     /* with the stored energy, and otherwise 0; all 0 after a refusal */
} sv_started;

/* A fresh start: clears both strings and the contact variables. A refusal leaves them as they were. */
sv_started sv_fresh_start(sv_setup setup,
                          int32_t *first, size_t first_length,     /* a string buffer */
                          int32_t *second, size_t second_length,   /* the other one */
                          int32_t *contact, size_t contact_length, /* the contact variable of each point */
                          int32_t height,                          /* the finger's, 0 to 1,048,576 */
                          int32_t older_height);                   /* the finger's older height, -1,048,576 to 1,048,576 */

/* What a step answers. */
typedef struct {
    uint32_t refusal; /* 0, or 1 to 5, 6, 7, 11, 12, 13 or 14 */
    uint32_t turn;    /* 1 or 0: which string is newer now; after a refusal the number passed in */
    sv_finger finger; /* after the step; after a refusal as passed in */
    sv_frame frame;   /* what the pickups hear; 0 after a refusal */
} sv_stepped;

/* One step. Writes the new string over the older buffer, and the contact variables. A refusal leaves every buffer as it was. */
sv_stepped sv_step(sv_setup setup,
                   const int32_t *heights, size_t heights_length,      /* the neck, as it was laid */
                   const uint16_t *stiffness, size_t stiffness_length, /* the neck, as it was laid */
                   int32_t *first, size_t first_length,                /* the strings and contact variables of the call before */
                   int32_t *second, size_t second_length,
                   int32_t *contact, size_t contact_length,
                   uint32_t turn,                                      /* 0: the first string is newer; any other number: the second */
                   sv_finger finger,
                   int32_t pluck,                                      /* the pluck force, -1,073,741,824 to 1,073,741,824 */
                   int32_t finger_force);                              /* the finger force, in the same range; below 0 presses */

/* What a booked step answers. */
typedef struct {
    uint32_t refusal; /* 0, or 1 to 5, 6, 7, 11, 12, 16, 17, 13 or 14 */
    uint32_t turn;    /* to frame: as for a step */
    sv_finger finger;
    sv_frame frame;
    sv_book book;     /* with the step in it; after a refusal as passed in */
} sv_booked;

/* One step, and its booking: the stored energy of the new state, the step's work, loss and rounding work added, the count one more. As a step does, but refuses, after 12
   and before anything is stepped, with 16 when the count is at its largest, 4,294,967,295, and with 17 when a column is outside -2^120 to 2^120. A refusal leaves every
   buffer as it was. */
sv_booked sv_step_booked(sv_setup setup,
                         const int32_t *heights, size_t heights_length, /* to finger_force: as for a step */
                         const uint16_t *stiffness, size_t stiffness_length,
                         int32_t *first, size_t first_length,
                         int32_t *second, size_t second_length,
                         int32_t *contact, size_t contact_length,
                         uint32_t turn, sv_finger finger,
                         int32_t pluck, int32_t finger_force,
                         sv_book book);                                 /* that the call before gave */

/* What a booked bend answers. */
typedef struct {
    uint32_t refusal; /* 0, or 1 to 5, 6, 11 or 17 */
    sv_setup setup;   /* with the new tension; after a refusal the one passed in */
    sv_book book;     /* with the bend in it; after a refusal as passed in */
} sv_bent;

/* A bend, and its booking: its work 2 * (L' - L) * E(u, v) added, the stored energy by the new setup; the count stays. Refuses as a bend does, then with 6 for the three
   buffers, 11 for the state and 17 for the book. Nothing is written. */
sv_bent sv_bend_booked(sv_setup setup, uint32_t tension, /* as for a bend */
                       const int32_t *first, size_t first_length,
                       const int32_t *second, size_t second_length,
                       const int32_t *contact, size_t contact_length,
                       uint32_t turn, sv_finger finger, sv_book book);

/* What a block answers. */
typedef struct {
    size_t count;     /* the number of steps made */
    uint32_t refusal; /* 0; or 1 to 5, 6, 15, 7 or 11 with count 0; or 12, 13 or 14 of the step that stopped it */
    uint32_t turn;    /* after the steps made; the number passed in if there is none */
    sv_finger finger; /* after the steps made */
} sv_played;

/* A block of n steps, until the forces end or a step is refused: the steps made stand. Each accepted step writes its frame; the samples past the
   last frame made, from 2 * count on, are as they were. So a driver's buffer of a fixed length may be lent whole for fewer steps, as for the last
   block of a song; the caller silences the rest of it. A refusal of the block itself (1 to 5, 6, 15, 7 or 11) leaves every buffer as it was. */
sv_played sv_play_block(sv_setup setup,
                        const int32_t *heights, size_t heights_length, /* to finger: as for a step */
                        const uint16_t *stiffness, size_t stiffness_length,
                        int32_t *first, size_t first_length,
                        int32_t *second, size_t second_length,
                        int32_t *contact, size_t contact_length,
                        uint32_t turn, sv_finger finger,
                        const int32_t *forces, size_t forces_length, /* 2n forces: of each step the pluck force, then the finger force */
                        float *samples, size_t samples_length);      /* at least 2n samples: of each step the bridge, then the neck */

/* Which buffer holds the newest string: 0 the first, at turn 0; 1 the second, at any other number. */
uint32_t sv_newest(uint32_t turn);

/* What reading a place answers. */
typedef struct {
    uint32_t refusal;    /* 0, or 1 to 5, 4 for the place, 6, 7 or 11 */
    uint32_t pressed;    /* 1 where the string lies below the neck's height there, 0 where it is free */
    double displacement; /* the newest displacement, divided by 1,048,576; exact; 0 after a refusal */
    double depth;        /* where pressed, how far below, divided by 1,048,576; exact; otherwise 0 */
} sv_reading;

/* How the newest string lies over the neck at a place. Nothing is written. */
sv_reading sv_read_place(sv_setup setup,
                         const int32_t *heights, size_t heights_length, /* the neck's */
                         const int32_t *first, size_t first_length,
                         const int32_t *second, size_t second_length,
                         uint32_t turn,                                 /* as for a step */
                         uint32_t place);                               /* 1 to N - 1 */

#ifdef __cplusplus
}
#endif

#endif
