/* A book's columns as numbers: 02's signed numbers of 128 bits in two words. */
#ifndef WIDE_H
#define WIDE_H

#include "../include/string_voice.h"

__extension__ typedef __int128 wide;
__extension__ typedef unsigned __int128 unsigned_wide;

/* The number that two words hold. */
static inline wide wide_of(sv_wide words) { return (wide)((unsigned_wide)words.high << 64 | words.low); }

enum { DECIMAL = 53 }; /* characters of the longest: a sign, 39 digits, 12 commas and the end */

/* Writes the number in decimal, with commas between thousands. */
void decimal(wide number, char text[DECIMAL]);

#endif
