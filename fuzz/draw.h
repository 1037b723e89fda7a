/* The generator, and the numbers that are drawn from it: every call of a fuzz run follows from the seed alone. */
#ifndef DRAW_H
#define DRAW_H

#include <stdint.h>

void draw_from_seed(uint64_t seed);
uint64_t draw(void);                             /* any 64 bits */
uint32_t draw_below(uint32_t n);                 /* 0 to n - 1 */
int one_in(uint32_t n);                          /* true once in n draws */
int32_t draw_between(int32_t low, int32_t high); /* low to high, any as often as another */
int32_t draw_outside(int32_t low, int32_t high); /* below low or above high: mostly by 1, else anywhere or at the end of 32 bits */
uint32_t draw_size(uint32_t end);                /* 0 to end, at most 2^30: 0, the end and what is next to them often, and every order of size */
int32_t draw_either(uint32_t end);               /* such a size, above or below 0 */

#endif
