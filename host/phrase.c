/* Plays a phrase on one string and writes it as sound and as a picture: open, fretted, bent, slid and tapped notes, and a rattle against the frets.

   Each note is a list of calls of its own, from a fresh start with the finger at its place, and has an energy book of its own: its steps are booked, and so are
   its bends. What the player does is set for a block of steps, and bends and slides are made between two blocks. The hand that silences a note is a greater
   plain loss: another setup over the same state. Demand 3 does not speak of that; the stored energy does not depend on the plain loss, and goes on from where
   it was, and the book with it. */
#include <errno.h>
#include <math.h>
#include <stdio.h>
#include <stdlib.h>
#include <string.h>
#include <time.h>
#include <unistd.h>
#include "player.h"
#include "plot.h"
#include "refusals.h"
#include "wav.h"

#define SHEET "energy book of each note, in units of %.3g J; stored energy = work - loss + rounding work"

typedef struct {
    sv_setup setup;
    int32_t heights[POINTS];
    uint16_t stiffness[POINTS];
    int32_t first[POINTS], second[POINTS], contact[POINTS];
    uint32_t turn;
    sv_finger finger;
    sv_book book;
    const note *playing;
} voice;

/* What is kept of the phrase. */
typedef struct {
    float samples[2 * FRAMES];
    double energy[BLOCKS];    /* joules, after each block */
    uint32_t touched[BLOCKS]; /* frets touched in each block: bit i - 1 for fret i */
    int32_t largest;          /* displacement after a block */
    uint32_t bends, slides;   /* that were made */
    uint32_t tightest;        /* tension */
    double bend_work;         /* of all bends, joules */
    sv_book books[NOTES];     /* of each note, at its end */
    double inside;            /* seconds inside sv_step_booked, the clock's own time included */
} take;

static double now(void)
{
    struct timespec t;
    clock_gettime(CLOCK_MONOTONIC, &t);
    return (double)t.tv_sec + 1e-9 * (double)t.tv_nsec;
}

static double start_of_block(size_t block) { return (double)(block * BLOCK) / RATE; }

/* The last block of the phrase is shorter. */
static size_t steps_of_block(size_t block) { return block + 1 < BLOCKS ? BLOCK : FRAMES - BLOCK * block; }

static void lay_neck(voice *v)
{
    v->setup = player_setup(notes, 0);
    uint32_t refusal = sv_check_setup(v->setup);
    if (refusal)
        refused("sv_check_setup", refusal, 0);
    refusal = instrument_neck(v->setup, v->heights, v->stiffness);
    if (refusal)
        refused("sv_lay_neck", refusal, 0);
}

/* A fresh start where a note begins. */
static void begin(voice *v, const note *n, double seconds)
{
    int32_t height = player_finger_height();
    sv_started s = sv_fresh_start(v->setup, v->first, POINTS, v->second, POINTS, v->contact, POINTS, height, height);
    if (s.refusal)
        refused("sv_fresh_start", s.refusal, seconds);
    v->turn = s.turn;
    v->finger = s.finger;
    v->book = s.book;
    v->playing = n;
}

/* The string bent to a tension: its energy changes at once, by the work of the bend. */
static void bend(voice *v, take *t, uint32_t tension, double seconds)
{
    sv_bent b = sv_bend_booked(v->setup, tension, v->first, POINTS, v->second, POINTS, v->contact, POINTS, v->turn, v->finger, v->book);
    if (b.refusal)
        refused("sv_bend_booked", b.refusal, seconds);
    t->bends++;
    t->bend_work += joules_of_units(wide_of(b.book.work) - wide_of(v->book.work));
    t->tightest = tension > t->tightest ? tension : t->tightest;
    v->setup = b.setup;
    v->book = b.book;
}

/* The finger slid to a place: its heights and its contact variable stay as they are. */
static void slide(voice *v, take *t, uint32_t place, double seconds)
{
    sv_changed c = sv_slide(v->setup, place);
    if (c.refusal)
        refused("sv_slide", c.refusal, seconds);
    v->setup = c.setup;
    t->slides++;
}

/* Before a block: what the player changes of the setup, and a fresh start where a note begins. */
static void prepare(voice *v, take *t, const note *n, double seconds)
{
    sv_setup wanted = player_setup(n, seconds);
    if (n != v->playing) {
        v->setup = wanted;
        begin(v, n, seconds);
    }
    v->setup.plain = wanted.plain;
    if (v->setup.tension != wanted.tension)
        bend(v, t, wanted.tension, seconds);
    if (v->setup.finger_place != wanted.finger_place)
        slide(v, t, wanted.finger_place, seconds);
}

static uint32_t frets_pressed(const voice *v, double seconds)
{
    uint32_t pressed = 0;
    for (uint32_t i = 0; i < FRETS; i++) {
        sv_reading r = sv_read_place(v->setup, v->heights, POINTS, v->first, POINTS, v->second, POINTS, v->turn, fret_places[i]);
        if (r.refusal)
            refused("sv_read_place", r.refusal, seconds);
        pressed |= (uint32_t)(r.pressed != 0) << i;
    }
    return pressed;
}

/* One step, whose frame is the sound. */
static void step(voice *v, take *t, int32_t pluck, int32_t finger_force, size_t frame)
{
    double start = now();
    sv_booked b = sv_step_booked(v->setup, v->heights, POINTS, v->stiffness, POINTS, v->first, POINTS, v->second, POINTS, v->contact, POINTS, v->turn, v->finger,
                                 pluck, finger_force, v->book);
    t->inside += now() - start;
    if (b.refusal)
        refused("sv_step_booked", b.refusal, (double)frame / RATE);
    v->turn = b.turn;
    v->finger = b.finger;
    v->book = b.book;
    t->samples[2 * frame] = b.frame.bridge;
    t->samples[2 * frame + 1] = b.frame.neck;
}

static void keep(const voice *v, take *t, size_t block)
{
    const int32_t *newest = sv_newest(v->turn) == 0 ? v->first : v->second;
    t->energy[block] = joules_of_units(wide_of(v->book.stored));
    t->books[v->playing - notes] = v->book;
    for (int i = 0; i < POINTS; i++)
        if (abs(newest[i]) > t->largest)
            t->largest = abs(newest[i]);
}

/* A contact that ends inside a block leaves no trace, so the frets are read after each step. */
static void play_block(voice *v, take *t, size_t block)
{
    double seconds = start_of_block(block);
    const note *n = note_at(seconds);
    size_t steps = steps_of_block(block);
    int32_t forces[2 * BLOCK];
    prepare(v, t, n, seconds);
    player_forces(n, seconds, v->finger, steps, forces);
    for (size_t i = 0; i < steps; i++) {
        step(v, t, forces[2 * i], forces[2 * i + 1], BLOCK * block + i);
        t->touched[block] |= frets_pressed(v, seconds + (double)(i + 1) / RATE);
    }
    keep(v, t, block);
}

/* On a terminal one line that changes, otherwise a line for each note. */
static void progress(size_t block)
{
    static const note *last;
    const note *n = note_at(start_of_block(block));
    int terminal = isatty(STDERR_FILENO);
    if (terminal && block % 100 == 0)
        fprintf(stderr, "\rplaying %5.2f s of %.2f s: %s, %s  ", start_of_block(block), PHRASE, n->name, n->how);
    if (terminal && block + 1 == BLOCKS)
        fprintf(stderr, "\r%60s\r", "");
    if (!terminal && n != last)
        fprintf(stderr, "playing %s, %s\n", n->name, n->how);
    last = n;
}

/* The frets that the string touched while a note sounded. */
static void report_note(const take *t, const note *n)
{
    uint32_t touched = 0;
    for (size_t block = 0; block < BLOCKS; block++)
        if (start_of_block(block) >= n->start && start_of_block(block) < note_end(n))
            touched |= t->touched[block];
    printf("%5.2f s  %s %-8s frets touched:", n->start, n->name, n->how);
    for (uint32_t i = 0; i < FRETS; i++)
        if (touched >> i & 1)
            printf(" %u", (unsigned)(i + 1));
    printf(touched ? "\n" : " none\n");
}

/* A note starts at rest and so without energy: what its book holds must balance from there. */
static void check_book(const note *n, sv_book b)
{
    if (wide_of(b.stored) != wide_of(b.work) - wide_of(b.loss) + wide_of(b.rounding)) {
        fprintf(stderr, "the book of %s %s at %.2f s does not balance\n", n->name, n->how, n->start);
        exit(1);
    }
}

static void fill_sheet(const take *t, sheet_row rows[NOTES])
{
    for (int i = 0; i < NOTES; i++) {
        check_book(&notes[i], t->books[i]);
        rows[i] = sheet_of(notes[i].name, notes[i].how, t->books[i]);
    }
}

static void report(const take *t, const sheet_row *rows)
{
    sv_setup s = player_setup(notes, notes[0].start);
    double bridge = 0, neck = 0;
    for (size_t i = 0; i < FRAMES; i++) {
        bridge = fmax(bridge, fabs(t->samples[2 * i]));
        neck = fmax(neck, fabs(t->samples[2 * i + 1]));
    }
    printf("N = %u, L = %u, M = %u, S = %u, Z = %u; finger of stiffness %u and mass %u\n", (unsigned)s.segments, (unsigned)s.tension, (unsigned)s.stiffness,
           (unsigned)s.viscous, (unsigned)s.plain, (unsigned)s.finger_stiffness, (unsigned)s.finger_mass);
    for (int i = 0; i < NOTES; i++)
        report_note(t, &notes[i]);
    printf(SHEET "\n", joules_of_units(1));
    print_sheet_row(&sheet_heads);
    for (int i = 0; i < NOTES; i++)
        print_sheet_row(&rows[i]);
    printf("%u bends between L = %u and %u, which added %.1f uJ in all; %u slides\n", (unsigned)t->bends, (unsigned)s.tension, (unsigned)t->tightest,
           1e6 * t->bend_work, (unsigned)t->slides);
    printf("loudest samples: bridge %.3f, neck %.3f; largest displacement %d of 1048576, %.2f mm\n", bridge, neck, (int)t->largest,
           1e3 * metres_of_units(t->largest));
    printf("%.2f s of sound, %.3f s inside sv_step_booked: %.1f times real time, %.0f ns a step\n", PHRASE, t->inside, PHRASE / t->inside, 1e9 * t->inside / FRAMES);
}

static int write_picture(const char *path, const take *t, const sheet_row *rows)
{
    sv_setup s = player_setup(notes, notes[0].start);
    plot_mark marks[NOTES];
    char caption[200], sheet[200];
    for (int i = 0; i < NOTES; i++)
        marks[i] = (plot_mark){notes[i].start, notes[i].name, notes[i].how};
    snprintf(caption, sizeof caption,
             "N = %u, L = %u, in the bend up to %u, M = %u, S = %u, Z = %u; 44,100 steps a second in blocks of %d; each note from a fresh start",
             (unsigned)s.segments, (unsigned)s.tension, (unsigned)t->tightest, (unsigned)s.stiffness, (unsigned)s.viscous, (unsigned)s.plain, BLOCK);
    snprintf(sheet, sizeof sheet, SHEET, joules_of_units(1));
    plot p = {.title = "The string voice: a phrase on an A string", .caption = caption, .seconds = PHRASE, .samples = t->samples, .frames = FRAMES,
              .millimetres = 1e3 * metres_of_units(1048576), .energy = t->energy, .touched = t->touched, .blocks = BLOCKS, .frets = FRETS,
              .marks = marks, .marks_length = NOTES, .sheet = sheet, .rows = rows, .rows_length = NOTES};
    return write_plot(path, &p);
}

static int write_sound(const char *path, take *t)
{
    for (size_t i = 0; i < FRAMES; i++) {
        double open = player_fader(note_at(start_of_block(i / BLOCK)), (double)i / RATE);
        t->samples[2 * i] *= (float)open;
        t->samples[2 * i + 1] *= (float)open;
    }
    return write_wav(path, t->samples, FRAMES, RATE);
}

static void written(const char *path, int failed)
{
    if (failed) {
        fprintf(stderr, "cannot write %s: %s\n", path, strerror(errno));
        exit(1);
    }
    printf("written: %s\n", path);
}

int main(int count, char **words)
{
    static voice v;
    static take t;
    static sheet_row rows[NOTES];
    if (count != 3) {
        fprintf(stderr, "usage: phrase SOUND.wav PICTURE.svg\n");
        return 2;
    }
    lay_neck(&v);
    for (size_t block = 0; block < BLOCKS; block++) {
        play_block(&v, &t, block);
        progress(block);
    }
    fill_sheet(&t, rows);
    report(&t, rows);
    written(words[2], write_picture(words[2], &t, rows));
    written(words[1], write_sound(words[1], &t));
    return 0;
}
