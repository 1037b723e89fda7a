/* The generator, splitmix64, and the numbers that are drawn from it. */
#include "draw.h"

static uint64_t state;

void draw_from_seed(uint64_t seed) { state = seed; }

uint64_t draw(void)
{
    uint64_t z = state += 0x9e3779b97f4a7c15u;
    z = (z ^ z >> 30) * 0xbf58476d1ce4e5b9u;
    z = (z ^ z >> 27) * 0x94d049bb133111ebu;
    return z ^ z >> 31;
}

uint32_t draw_below(uint32_t n) { return (uint32_t)((draw() >> 32) * n >> 32); }

int one_in(uint32_t n) { return draw_below(n) == 0; }

int32_t draw_between(int32_t low, int32_t high) { return (int32_t)(low + (int64_t)draw_below((uint32_t)((int64_t)high - low) + 1)); }

int32_t draw_outside(int32_t low, int32_t high)
{
    int above = one_in(2);
    switch (draw_below(4)) {
    case 0: return above ? INT32_MAX : INT32_MIN;
    case 1: return above ? draw_between(high + 1, INT32_MAX) : draw_between(INT32_MIN, low - 1);
    default: return above ? high + 1 : low - 1;
    }
}

uint32_t draw_size(uint32_t end)
{
    uint32_t few = end < 3 ? end + 1 : 3;
    switch (draw_below(8)) {
    case 0: return 0;
    case 1: return end;
    case 2: return draw_below(few);
    case 3: return end - draw_below(few);
    case 4: return draw_below(end + 1);
    default: return draw_below((end >> draw_below(21)) + 1);
    }
}

int32_t draw_either(uint32_t end)
{
    int32_t size = (int32_t)draw_size(end);
    return one_in(2) ? size : -size;
}
