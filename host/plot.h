/* A picture of a phrase as an SVG file: what the bridge pickup heard, the stored energy and the frets that were touched, over time; and the sheet under it. */
#ifndef PLOT_H
#define PLOT_H

#include "sheet.h"

/* Something that happened, with a name and, below it, how it was played. */
typedef struct {
    double seconds;
    const char *name, *how;
} plot_mark;

typedef struct {
    const char *title, *caption;
    double seconds;                /* how long the phrase is */
    const float *samples;          /* two for each frame, the bridge first */
    size_t frames;
    double millimetres;            /* in a sample of 1 */
    const double *energy;          /* in joules, after each block */
    const uint32_t *touched;       /* in each block: bit i - 1 says whether the string touched fret i */
    size_t blocks;
    unsigned frets;
    const plot_mark *marks;
    size_t marks_length;
    const char *sheet;             /* what stands in the rows under the panels */
    const sheet_row *rows;
    size_t rows_length;
} plot;

/* 0 if the file is written; otherwise errno says why not. */
int write_plot(const char *path, const plot *p);

#endif
