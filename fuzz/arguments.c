/* Drawn arguments, in order and changed. */
#include "arguments.h"
#include <string.h>
#include "book.h"
#include "draw.h"
#include "rules.h"

enum { LONGEST = 600 };

unsigned draw_changes(unsigned possible)
{
    unsigned changes = 0;
    if (one_in(2))
        return 0;
    for (uint32_t left = 1 + draw_below(1 + draw_below(3)); left > 0;) {
        unsigned change = 1u << draw_below(KINDS_OF_CHANGES);
        if (possible & change) {
            changes |= change;
            left--;
        }
    }
    return changes;
}

static uint32_t draw_segments(void)
{
    static const uint32_t ends[] = {2, 3, 4, 5, 6, 127, 128};
    switch (draw_below(4)) {
    case 0: return ends[draw_below(7)];
    case 1: return 2 + draw_below(15);
    default: return 2 + draw_below(127);
    }
}

/* L + 4M + 2S is often 4096 itself. */
static void draw_coefficients(sv_setup *s)
{
    uint32_t room = 4095;
    int stiffness_first = one_in(2);
    if (stiffness_first)
        s->stiffness = draw_size(room / 4);
    s->viscous = draw_size((stiffness_first ? room - 4 * s->stiffness : room) / 2);
    if (!stiffness_first)
        s->stiffness = draw_size((room - 2 * s->viscous) / 4);
    room -= 4 * s->stiffness + 2 * s->viscous;
    s->tension = 1 + (one_in(3) ? room : draw_size(room));
    s->plain = one_in(3) ? 0 : draw_size(4096);
}

static uint16_t draw_stiffness(void) { return (uint16_t)(one_in(4) ? 60 + draw_below(8) : draw_size(65535)); }

/* One field to a boundary value, or to the next number above or below. */
static void change_setup(sv_setup *s)
{
    uint32_t *coefficients[] = {&s->tension, &s->stiffness, &s->viscous, &s->plain}, *coefficient = coefficients[draw_below(4)];
    uint32_t *places[] = {&s->finger_place, &s->pluck_place, &s->bridge_place, &s->neck_place}, *place = places[draw_below(4)];
    uint32_t *fields[] = {&s->segments, coefficient, coefficient, place, &s->finger_mass}, *field = fields[draw_below(5)];
    uint32_t N = s->segments, any = (uint32_t)draw();
    uint32_t values[] = {0, 1, 2, 127, 128, 129, 4096, 4097, N - 1, N, N + 1, 1048576, 1048577, 0x7fffffff, 0x80000000, 0xffffffff, any};
    switch (draw_below(4)) {
    case 0: *field += 1; break;
    case 1: *field -= 1; break;
    default: *field = values[draw_below(17)];
    }
}

size_t draw_setup(sv_setup *s, unsigned changes)
{
    memset(s, (int)draw_below(256), sizeof *s); /* the two bytes between the fields hold anything */
    s->segments = draw_segments();
    size_t points = s->segments - 1;
    draw_coefficients(s);
    s->finger_stiffness = draw_stiffness();
    s->finger_mass = one_in(4) ? 4096 : 1 + draw_size(1048575);
    s->finger_place = draw_place(points, 0);
    s->pluck_place = one_in(4) ? s->finger_place : draw_place(points, 0);
    s->bridge_place = draw_place(points, 0);
    s->neck_place = draw_place(points, 0);
    if (changes & SETUP)
        for (uint32_t left = 1 + draw_below(3); left > 0; left--)
            change_setup(s);
    return s->segments - 1 < LONGEST && one_in(2) ? s->segments - 1 : points;
}

size_t draw_length(size_t points, unsigned changes)
{
    if (!(changes & LENGTH) || !one_in(4))
        return points;
    size_t lengths[] = {0, 1, points - (points > 0), points + 1, points + 2, 127, 128, draw_below(LONGEST)};
    return lengths[draw_below(8)];
}

uint32_t draw_turn(void)
{
    static const uint32_t turns[] = {0, 0, 0, 1, 1, 2, 0xffffffff};
    return one_in(8) ? (uint32_t)draw() : turns[draw_below(7)];
}

uint32_t draw_place(size_t points, unsigned changes)
{
    uint32_t last = (uint32_t)points, beyond[] = {0, last + 1, last + 2, 0x80000000, 0xffffffff, (uint32_t)draw()};
    if (changes & PLACE)
        return beyond[draw_below(6)];
    return last == 0 ? 0 : 1 + draw_size(last - 1);
}

/* Anything that stiffness and viscous loss leave room for, often as much as that, or next to the present tension; changed, at a boundary or beyond it. */
uint32_t draw_tension(const sv_setup *s, unsigned changes)
{
    uint32_t room = 4096 - 4 * s->stiffness - 2 * s->viscous, beyond[] = {0, room + 1, room + 2, 4097, 0x80000000, 0xffffffff, (uint32_t)draw()};
    if (changes & TENSION)
        return beyond[draw_below(7)];
    if (room < 1 || room > 4096)
        return 1 + draw_size(4095);
    uint32_t near = s->tension + (uint32_t)draw_between(-4, 4);
    return one_in(2) && near >= 1 && near <= room ? near : 1 + draw_size(room - 1);
}

/* Puts one number out of its range. */
static void put_outside(int32_t *numbers, size_t length, int32_t low, int32_t high)
{
    if (length > 0)
        numbers[draw_size((uint32_t)length - 1)] = draw_outside(low, high);
}

/* Level, or with some roughness; mostly near the string's line of rest. */
static void draw_heights(lent *buffer, unsigned changes)
{
    int32_t *heights = lent_numbers(buffer);
    uint32_t depth = draw_size(DISPLACEMENT >> draw_below(21)), rough = one_in(2) ? 0 : draw_size(DISPLACEMENT - depth);
    for (size_t i = 0; i < buffer->length; i++)
        heights[i] = -(int32_t)(depth + draw_below(rough + 1));
    if (changes & HEIGHT)
        put_outside(heights, buffer->length, -DISPLACEMENT, 0);
}

void draw_neck(voice *v, size_t points, unsigned changes)
{
    lent_place(v->heights, draw_length(points, changes));
    draw_heights(v->heights, changes);
    lent_place(v->stiffness, draw_length(points, changes));
    uint16_t *stiffness = lent_numbers(v->stiffness), level = draw_stiffness();
    int even = one_in(2);
    for (size_t i = 0; i < v->stiffness->length; i++)
        stiffness[i] = even ? level : draw_stiffness();
    lent_settle(v->heights);
    lent_settle(v->stiffness);
}

/* So many increasing places from 1 to the last, any such list as often as another. */
static void draw_increasing(uint32_t *places, size_t number, size_t last)
{
    size_t taken = 0;
    for (size_t place = 1; place <= last && taken < number; place++)
        if (draw_below((uint32_t)(last - place + 1)) < number - taken)
            places[taken++] = (uint32_t)place;
}

/* One place out of range or out of order, or more than 24 of them. */
static void change_frets(lent *buffer, size_t points)
{
    if (one_in(3)) {
        lent_place(buffer, one_in(4) ? draw_below(LONGEST) : 25 + draw_below(3));
        draw_increasing(lent_numbers(buffer), buffer->length, points > buffer->length ? points : buffer->length);
        return;
    }
    if (buffer->length == 0)
        lent_place(buffer, 1);
    uint32_t *places = lent_numbers(buffer), at = draw_size((uint32_t)buffer->length - 1);
    uint32_t values[] = {0, 1, (uint32_t)points, (uint32_t)points + 1, places[at > 0 ? at - 1 : 0], 0x80000000, 0xffffffff, (uint32_t)draw()};
    places[at] = values[draw_below(8)];
}

static int32_t draw_tip(const neck_plan *plan, unsigned changes)
{
    const uint32_t *places = lent_numbers(plan->frets);
    const int32_t *board = lent_numbers(plan->board);
    int32_t highest = -DISPLACEMENT;
    for (size_t i = 0; i < plan->frets->length; i++)
        if (places[i] >= 1 && places[i] <= plan->board->length && board[places[i] - 1] > highest)
            highest = board[places[i] - 1];
    if (plan->frets->length == 0)
        return (int32_t)(uint32_t)draw();
    if (highest > 0)
        highest = 0;
    return changes & TIP ? draw_outside(highest, 0) : highest + (int32_t)draw_size((uint32_t)-highest);
}

void draw_plan(neck_plan *plan, size_t points, unsigned changes)
{
    uint32_t most = points < 24 ? (uint32_t)points : 24;
    lent_place(plan->board, draw_length(points, changes));
    draw_heights(plan->board, changes);
    lent_place(plan->frets, draw_size(most));
    draw_increasing(lent_numbers(plan->frets), plan->frets->length, points);
    if (changes & FRETS)
        change_frets(plan->frets, points);
    plan->tip = draw_tip(plan, changes);
    plan->board_stiffness = draw_stiffness();
    plan->fret_stiffness = draw_stiffness();
    lent_settle(plan->board);
    lent_settle(plan->frets);
}

int32_t within(int64_t number, int32_t end) { return (int32_t)(number > end ? end : number < -end ? -end : number); }

/* At rest, each point at one of two ends, drawn out to a peak, or anything of that size. */
static void draw_string(lent *buffer)
{
    int32_t size = one_in(2) ? (int32_t)draw_size(DISPLACEMENT) : DISPLACEMENT >> draw_below(21), top = one_in(3) ? size : -size;
    int32_t *string = lent_numbers(buffer);
    int64_t length = (int64_t)buffer->length, peak = draw_below((uint32_t)length + 1);
    uint32_t shape = draw_below(8);
    for (int64_t i = 0; i < length; i++)
        switch (shape) {
        case 0: string[i] = 0; break;
        case 1: string[i] = one_in(2) ? size : -size; break;
        case 2: case 3: case 4: string[i] = (int32_t)(i <= peak ? top * (i + 1) / (peak + 1) : top * (length - i) / (length - peak)); break;
        default: string[i] = draw_between(-size, size);
        }
}

/* Mostly some way from the newer string. */
static void draw_older(lent *older, const lent *newer)
{
    const int32_t *from = lent_numbers(newer);
    int32_t *string = lent_numbers(older), way = (int32_t)draw_size(DISPLACEMENT);
    draw_string(older);
    if (!one_in(4))
        for (size_t i = 0; i < older->length && i < newer->length; i++)
            string[i] = within((int64_t)from[i] + draw_between(-way, way), DISPLACEMENT);
}

static void draw_contacts(lent *buffer)
{
    int32_t *contact = lent_numbers(buffer), size = one_in(4) ? CONTACT : (int32_t)draw_size(CONTACT);
    int ends = one_in(2);
    for (size_t i = 0; i < buffer->length; i++)
        contact[i] = ends ? (one_in(2) ? size : -size) : draw_between(-size, size);
}

/* Mostly lower than the string at its place, where it presses; at times from one end of its range at the other. */
static void draw_finger(voice *v)
{
    const lent *newer = v->turn == 0 ? v->first : v->second;
    uint32_t p = v->setup.finger_place;
    int32_t beside = p >= 1 && p <= newer->length ? ((const int32_t *)lent_numbers(newer))[p - 1] : 0;
    v->finger.newer = one_in(4) ? draw_either(DISPLACEMENT) : within((int64_t)beside - draw_size(DISPLACEMENT), DISPLACEMENT);
    v->finger.older = one_in(4) ? draw_either(DISPLACEMENT) : within((int64_t)v->finger.newer - draw_either(DISPLACEMENT / 2), DISPLACEMENT);
    v->finger.contact = draw_either(CONTACT);
    if (one_in(16)) {
        v->finger.newer = one_in(2) ? DISPLACEMENT : -DISPLACEMENT;
        v->finger.older = -v->finger.newer;
    }
}

static void change_state(voice *v)
{
    lent *strings[] = {v->first, v->second};
    int32_t *heights[] = {&v->finger.newer, &v->finger.older};
    lent *string = strings[draw_below(2)];
    switch (draw_below(8)) {
    case 0: put_outside(heights[draw_below(2)], 1, -DISPLACEMENT, DISPLACEMENT); break;
    case 1: put_outside(&v->finger.contact, 1, -CONTACT, CONTACT); break;
    case 2: case 3: put_outside(lent_numbers(v->contact), v->contact->length, -CONTACT, CONTACT); break;
    default: put_outside(lent_numbers(string), string->length, -DISPLACEMENT, DISPLACEMENT);
    }
}

void draw_state(voice *v, size_t points, unsigned changes)
{
    v->turn = draw_turn();
    lent_place(v->first, draw_length(points, changes));
    lent_place(v->second, draw_length(points, changes));
    lent_place(v->contact, draw_length(points, changes));
    lent *newer = v->turn == 0 ? v->first : v->second, *older = v->turn == 0 ? v->second : v->first;
    draw_string(newer);
    draw_older(older, newer);
    draw_contacts(v->contact);
    draw_finger(v);
    if (changes & STATE)
        change_state(v);
    lent_settle(v->first);
    lent_settle(v->second);
    lent_settle(v->contact);
}

/* The lighter the finger, the more often the string's contact at p is dropped first and then the finger's; the other way round it is rare. */
void draw_pressed(voice *v)
{
    static const uint32_t masses[] = {1, 16, 256, 1024};
    size_t points = draw_setup(&v->setup, 0);
    draw_neck(v, points, 0);
    draw_state(v, points, 0);
    v->setup.finger_mass = masses[draw_below(4)];
    v->setup.finger_stiffness = (uint16_t)draw_between(3000, 65535);
    lent *strings[] = {v->turn == 0 ? v->first : v->second, v->turn == 0 ? v->second : v->first};
    int32_t *heights = lent_numbers(v->heights), *newer = lent_numbers(strings[0]), *older = lent_numbers(strings[1]), *contact = lent_numbers(v->contact);
    uint16_t *stiffness = lent_numbers(v->stiffness);
    for (size_t i = 0; i < points; i++) {
        heights[i] = draw_between(-30, 0);
        stiffness[i] = (uint16_t)draw_between(3000, 65535);
        newer[i] = heights[i] - draw_between(1, 50);
        older[i] = newer[i] + draw_between(-50, 50);
        contact[i] = draw_between(-400, 400);
    }
    int32_t height = newer[v->setup.finger_place - 1] - draw_between(1, 50);
    v->finger = (sv_finger){height, height + draw_between(-50, 50), draw_between(-400, 400)};
    lent *buffers[] = {v->heights, v->stiffness, v->first, v->second, v->contact};
    for (int i = 0; i < 5; i++)
        lent_settle(buffers[i]);
}

/* Often some halves of what divides it, which is 4096 + Z or the finger's mass: with an odd number of them it makes a tie. */
int32_t draw_force(const sv_setup *s, uint32_t greatest, unsigned changes)
{
    int64_t divisor = one_in(2) ? 4096 + (int64_t)s->plain : (int64_t)s->finger_mass;
    if (changes & FORCES)
        return draw_outside(-FORCE, FORCE);
    if (greatest == 0)
        return 0;
    switch (draw_below(4)) {
    case 0: return 0;
    case 1: return within(divisor * draw_between(-3, 3) / 2, FORCE);
    default: return draw_either(greatest);
    }
}

static uint32_t draw_steps(uint32_t most)
{
    uint32_t few = most < 4 ? most : 4;
    return one_in(3) ? draw_below(most + 1) : draw_below(few + 1);
}

/* How many samples lie behind those of the frames: none, a few, or a driver's buffer. */
static size_t draw_surplus(void)
{
    size_t numbers[] = {0, 0, 1 + draw_below(4), draw_below(LONGEST / 4)};
    return numbers[draw_below(4)];
}

/* An odd number of forces, or fewer samples. */
static void change_counts(size_t *forces, size_t *samples)
{
    size_t even = *forces, fewer[] = {even - (even > 0), even - 2 * (even > 0), 0, draw_below((uint32_t)even + 1)};
    int odd = one_in(2);
    if (odd)
        *forces = even > 0 && one_in(2) ? even - 1 : even + 1;
    if (!odd || one_in(3))
        *samples = fewer[draw_below(4)];
}

/* Samples hold any bits before the call, often those of some NaN. */
void draw_forces(lent *forces, lent *samples, const sv_setup *setup, uint32_t most_steps, uint32_t greatest, unsigned changes)
{
    size_t number = 2 * (size_t)draw_steps(most_steps), of_samples = number + draw_surplus();
    if (changes & COUNTS)
        change_counts(&number, &of_samples);
    lent_place(forces, number);
    lent_place(samples, of_samples);
    int32_t *force = lent_numbers(forces);
    uint32_t *bits = lent_numbers(samples);
    for (size_t i = 0; i < number; i++)
        force[i] = draw_force(setup, greatest, 0);
    if ((changes & FORCES) && number > 0)
        force[draw_below((uint32_t)number)] = draw_force(setup, greatest, FORCES);
    for (size_t i = 0; i < of_samples; i++)
        bits[i] = (uint32_t)draw() | (one_in(3) ? 0x7f800000 : 0);
    lent_settle(forces);
    lent_settle(samples);
}

void draw_start(int32_t *height, int32_t *older_height, unsigned changes)
{
    *height = (int32_t)draw_size(DISPLACEMENT >> draw_below(21));
    switch (draw_below(3)) {
    case 0: *older_height = draw_either(DISPLACEMENT); break;
    case 1: *older_height = within(*height + (int64_t)draw_below((uint32_t)*height + 64), DISPLACEMENT); break; /* coming down */
    default: *older_height = *height;
    }
    if (changes & STATE) {
        if (one_in(2))
            put_outside(height, 1, 0, DISPLACEMENT);
        else
            put_outside(older_height, 1, -DISPLACEMENT, DISPLACEMENT);
    }
}

/* Of every size, above and below 0; often an end of the range or next to it, and a low word of zeros or of ones. */
static wide draw_column(void)
{
    wide any = wide_of((sv_wide){draw(), draw()}) >> 7 >> draw_below(121), low = UINT64_MAX;
    switch (draw_below(8)) {
    case 0: return 0;
    case 1: return one_in(2) ? COLUMN : -COLUMN;
    case 2: return one_in(2) ? COLUMN - draw_below(4) : draw_below(4) - COLUMN;
    case 3: return one_in(2) ? any | low : any & ~low;
    default: return any;
    }
}

/* Mostly next to the range, else any greater size or the end of 128 bits. */
static wide draw_column_outside(void)
{
    wide above = COLUMN + 1;
    switch (draw_below(4)) {
    case 0: above += (wide)(draw() >> draw_below(64)); break;
    case 1: above = ((wide)1 << draw_between(121, 126)) + draw_below(2); break;
    case 2: above = (wide)(~(unsigned_wide)0 >> 1); break;
    }
    return one_in(2) ? above : -above - draw_below(2);
}

/* Changed: the count at its largest, a column out of its range, or both. */
sv_book draw_book(unsigned changes)
{
    sv_book book;
    sv_wide *columns[] = {&book.stored, &book.work, &book.loss, &book.rounding};
    uint32_t counts[] = {0, 1, 0x7fffffff, UINT32_MAX - 2, UINT32_MAX - 1, (uint32_t)draw()}, which = draw_below(3);
    memset(&book, (int)draw_below(256), sizeof book); /* the four bytes behind the count hold anything */
    for (int i = 0; i < COLUMNS; i++)
        *columns[i] = words_of(draw_column());
    book.count = counts[draw_below(6)];
    if ((changes & BOOK) && which != 0)
        book.count = UINT32_MAX;
    if ((changes & BOOK) && which != 1)
        *columns[draw_below(COLUMNS)] = words_of(draw_column_outside());
    return book;
}
