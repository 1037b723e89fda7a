/* The player of the phrase: its notes, and what fingers and hand do at a time. */
#ifndef PLAYER_H
#define PLAYER_H

#include "instrument.h"

enum { BLOCK = 64, FRAMES = 18 * RATE, BLOCKS = (FRAMES + BLOCK - 1) / BLOCK, NOTES = 11 };

#define PHRASE ((double)FRAMES / RATE) /* how long it is, s */

/* A note: when it sounds, at which fret (0 is the open string), and with how many newtons the string is pulled, below 0 towards the neck. A note that is
   not pulled is tapped. */
typedef struct {
    const char *name, *how;
    double start;
    uint32_t fret;
    double pull;
    double bend;    /* by how many cents the string is bent up while the note sounds, and then let back; 0: it is not */
    uint32_t slide; /* the fret to which the finger slides while the note sounds; 0: it stays */
} note;

extern const note notes[NOTES];

/* The note whose run it is. */
const note *note_at(double seconds);

/* When a hand silences a note. */
double note_end(const note *n);

/* The setup at a time of a note: with the finger at its place, the string bent or not, and with a hand on the string or without. */
sv_setup player_setup(const note *n, double seconds);

/* Where the finger is at a note's fresh start. */
int32_t player_finger_height(void);

/* The forces of so many steps, from a time on, with the finger as it is then: of each step the pluck force, then the finger force. */
void player_forces(const note *n, double seconds, sv_finger finger, size_t steps, int32_t *forces);

/* How far the fader is open, 1 to 0: it is drawn down once the hand has silenced a note. */
double player_fader(const note *n, double seconds);

#endif
