/* 01, 'What each operation turns down', 'Laying the neck', fresh start, newest string and 'reading a place'; 02, item 5, bends and slides, and item 6, booked bends. */
#include "rules.h"
#include "book.h"

static int in(int64_t low, int64_t number, int64_t high) { return low <= number && number <= high; }

static int all_in(int32_t low, const int32_t *numbers, size_t length, int32_t high)
{
    int all = 1;
    for (size_t i = 0; i < length; i++)
        all = all && in(low, numbers[i], high);
    return all;
}

static int state_in(size_t points, const int32_t *first, const int32_t *second, const int32_t *contact, sv_finger finger)
{
    return all_in(-DISPLACEMENT, first, points, DISPLACEMENT) && all_in(-DISPLACEMENT, second, points, DISPLACEMENT) && all_in(-CONTACT, contact, points, CONTACT)
        && in(-DISPLACEMENT, finger.newer, DISPLACEMENT) && in(-DISPLACEMENT, finger.older, DISPLACEMENT) && in(-CONTACT, finger.contact, CONTACT);
}

uint32_t rule_check_setup(sv_setup s)
{
    int64_t N = s.segments, L = s.tension, M = s.stiffness, S = s.viscous, Z = s.plain;
    if (!in(2, N, 128))
        return 1;
    if (!in(1, L, 4096) || !in(0, M, 4096) || !in(0, S, 4096) || !in(0, Z, 4096))
        return 2;
    if (L + 4 * M + 2 * S > 4096)
        return 3;
    if (!in(1, s.finger_place, N - 1) || !in(1, s.pluck_place, N - 1) || !in(1, s.bridge_place, N - 1) || !in(1, s.neck_place, N - 1))
        return 4;
    return in(1, s.finger_mass, 1048576) ? 0 : 5;
}

/* A setup with one value replaced, examined with it: itself if it is accepted, otherwise the one passed in. */
static sv_changed examined(sv_setup replaced, sv_setup passed)
{
    uint32_t refusal = rule_check_setup(replaced);
    return (sv_changed){refusal, refusal ? passed : replaced};
}

sv_changed rule_bend(sv_setup s, uint32_t tension)
{
    sv_setup bent = s;
    bent.tension = tension;
    return examined(bent, s);
}

sv_changed rule_slide(sv_setup s, uint32_t place)
{
    sv_setup slid = s;
    slid.finger_place = place;
    return examined(slid, s);
}

sv_bent rule_bend_booked(sv_setup s, uint32_t tension, const int32_t *first, size_t first_length, const int32_t *second, size_t second_length,
                         const int32_t *contact, size_t contact_length, uint32_t turn, sv_finger finger, sv_book book)
{
    size_t points = (size_t)s.segments - 1;
    const int32_t *newer = turn == 0 ? first : second, *older = turn == 0 ? second : first;
    sv_changed changed = rule_bend(s, tension);
    sv_bent bent = {changed.refusal, s, book};
    if (bent.refusal == 0 && (first_length != points || second_length != points || contact_length != points))
        bent.refusal = 6;
    if (bent.refusal == 0 && !state_in(points, first, second, contact, finger))
        bent.refusal = 11;
    if (bent.refusal == 0)
        bent.refusal = column_refusal(book);
    if (bent.refusal)
        return bent;
    bent.setup = changed.setup;
    bent.book = booked(book, (entry){.stored = stored_energy(bent.setup, newer, older, contact, finger), .work = bend_work(s, tension, newer, older)});
    return bent;
}

static int frets_right(sv_setup s, const uint32_t *frets, size_t length)
{
    if (length > 24)
        return 0;
    for (size_t i = 0; i < length; i++)
        if (!in(1, frets[i], (int64_t)s.segments - 1) || (i > 0 && frets[i] <= frets[i - 1]))
            return 0;
    return 1;
}

static int tip_right(const int32_t *board, const uint32_t *frets, size_t length, int32_t tip)
{
    for (size_t i = 0; i < length; i++)
        if (!in(board[frets[i] - 1], tip, 0))
            return 0;
    return 1;
}

uint32_t rule_lay_neck(sv_setup s, const int32_t *board, size_t board_length, uint16_t board_stiffness, const uint32_t *frets, size_t frets_length, int32_t tip,
                       uint16_t fret_stiffness, int32_t *heights, size_t heights_length, uint16_t *stiffness, size_t stiffness_length)
{
    size_t points = (size_t)s.segments - 1;
    uint32_t refusal = rule_check_setup(s);
    if (refusal)
        return refusal;
    if (board_length != points || heights_length != points || stiffness_length != points)
        return 6;
    if (!all_in(-DISPLACEMENT, board, points, 0))
        return 7;
    if (!frets_right(s, frets, frets_length))
        return 8;
    if (!tip_right(board, frets, frets_length, tip))
        return 9;
    for (size_t i = 0; i < points; i++) {
        heights[i] = board[i];
        stiffness[i] = board_stiffness;
    }
    for (size_t i = 0; i < frets_length; i++) {
        heights[frets[i] - 1] = tip;
        stiffness[frets[i] - 1] = fret_stiffness;
    }
    return 0;
}

sv_started rule_fresh_start(sv_setup s, int32_t *first, size_t first_length, int32_t *second, size_t second_length, int32_t *contact, size_t contact_length,
                            int32_t height, int32_t older_height)
{
    size_t points = (size_t)s.segments - 1;
    sv_started started = {.refusal = rule_check_setup(s)};
    if (started.refusal == 0 && (first_length != points || second_length != points || contact_length != points))
        started.refusal = 6;
    if (started.refusal == 0 && (!in(0, height, DISPLACEMENT) || !in(-DISPLACEMENT, older_height, DISPLACEMENT)))
        started.refusal = 10;
    if (started.refusal)
        return started;
    for (size_t i = 0; i < points; i++)
        first[i] = second[i] = contact[i] = 0;
    started.finger = (sv_finger){height, older_height, 0};
    started.book = booked(started.book, (entry){.stored = stored_energy(s, first, second, contact, started.finger)});
    return started;
}

uint32_t rule_newest(uint32_t turn) { return turn == 0 ? 0 : 1; }

sv_reading rule_read_place(sv_setup s, const int32_t *heights, size_t heights_length, const int32_t *first, size_t first_length,
                           const int32_t *second, size_t second_length, uint32_t turn, uint32_t place)
{
    size_t points = (size_t)s.segments - 1;
    const int32_t *newest = turn == 0 ? first : second;
    sv_reading reading = {rule_check_setup(s), 0, 0, 0};
    if (reading.refusal == 0 && !in(1, place, (int64_t)points))
        reading.refusal = 4;
    if (reading.refusal == 0 && (heights_length != points || first_length != points || second_length != points))
        reading.refusal = 6;
    if (reading.refusal == 0 && !all_in(-DISPLACEMENT, heights, points, 0))
        reading.refusal = 7;
    if (reading.refusal == 0 && !all_in(-DISPLACEMENT, newest, points, DISPLACEMENT))
        reading.refusal = 11;
    if (reading.refusal)
        return reading;
    int32_t displacement = newest[place - 1], depth = heights[place - 1] - displacement;
    reading.pressed = depth > 0;
    reading.displacement = displacement / 1048576.0;
    reading.depth = depth > 0 ? depth / 1048576.0 : 0;
    return reading;
}
