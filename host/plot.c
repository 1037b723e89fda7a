/* A picture of a phrase as an SVG file: three panels above one another over the same seconds, a line through them for each mark, and the sheet's rows below. */
#include <math.h>
#include <stdio.h>
#include "plot.h"

enum { WIDTH = 1240, LEFT = 92, RIGHT = 1216, COLUMNS = RIGHT - LEFT, SHEET_TOP = 776, ROW = 18 };

typedef struct {
    int top, bottom;
    double low, high; /* the values at bottom and top */
} panel;

static const panel waveform_place = {112, 342, 0, 0}, energy_place = {370, 570, -8, 0}, frets_place = {598, 694, 0, 0};

static double across(const plot *p, double seconds) { return LEFT + COLUMNS * seconds / p->seconds; }

static double across_blocks(const plot *p, size_t blocks) { return LEFT + COLUMNS * (double)blocks / (double)p->blocks; }

static double up(panel a, double value) { return a.bottom - (a.bottom - a.top) * (value - a.low) / (a.high - a.low); }

static void text(FILE *f, double x, double y, const char *style, const char *words)
{
    fprintf(f, "<text x=\"%.1f\" y=\"%.1f\" class=\"%s\">%s</text>\n", x, y, style, words);
}

static void line(FILE *f, double x1, double y1, double x2, double y2, const char *style)
{
    fprintf(f, "<line x1=\"%.1f\" y1=\"%.1f\" x2=\"%.1f\" y2=\"%.1f\" class=\"%s\"/>\n", x1, y1, x2, y2, style);
}

static void value_line(FILE *f, panel a, double value, const char *label)
{
    line(f, LEFT, up(a, value), RIGHT, up(a, value), "grid");
    text(f, LEFT - 8, up(a, value) + 4, "value", label);
}

/* The panel's name, written upwards beside it, and its frame. */
static void frame(FILE *f, panel a, const char *name)
{
    fprintf(f, "<rect x=\"%d\" y=\"%d\" width=\"%d\" height=\"%d\" class=\"frame\"/>\n", LEFT, a.top, COLUMNS, a.bottom - a.top);
    fprintf(f, "<text transform=\"translate(22 %d) rotate(-90)\" class=\"axis\">%s</text>\n", (a.top + a.bottom) / 2, name);
}

static void head(FILE *f, const plot *p)
{
    int height = SHEET_TOP + ROW * ((int)p->rows_length + 2);
    fprintf(f,
            "<svg xmlns=\"http://www.w3.org/2000/svg\" viewBox=\"0 0 %d %d\" width=\"%d\" height=\"%d\" font-family=\"Helvetica, Arial, sans-serif\">\n"
            "<style>text{font-size:12px;fill:#333}.title{font-size:18px;font-weight:bold;fill:#111}.caption{fill:#666}.value{text-anchor:end}\n"
            ".second,.axis,.how{text-anchor:middle}.how{font-size:11px;fill:#666}.axis{font-size:13px;fill:#111}\n"
            ".name{text-anchor:middle;font-size:14px;font-weight:bold;fill:#111}.grid{stroke:#e4e4e4}.mark{stroke:#c0392b;stroke-dasharray:4 3;opacity:.75}\n"
            ".frame{fill:none;stroke:#999}.wave{fill:#1f5a96;stroke:#1f5a96;stroke-width:.8}.energy{fill:none;stroke:#b9560b;stroke-width:1.5}\n"
            ".touched{fill:none;stroke:#2d7d46;stroke-width:3}</style>\n"
            "<rect width=\"%d\" height=\"%d\" fill=\"#fff\"/>\n",
            WIDTH, height, WIDTH, height, WIDTH, height);
    text(f, LEFT, 32, "title", p->title);
    text(f, LEFT, 52, "caption", p->caption);
}

static void seconds(FILE *f, const plot *p)
{
    char label[16];
    for (int second = 0; second <= p->seconds + 0.01; second++) {
        double x = across(p, second);
        line(f, x, waveform_place.top, x, frets_place.bottom, "grid");
        snprintf(label, sizeof label, "%d", second);
        text(f, x, frets_place.bottom + 18, "second", label);
    }
    text(f, (LEFT + RIGHT) / 2.0, frets_place.bottom + 42, "axis", "time, s");
}

static void marks(FILE *f, const plot *p)
{
    for (size_t i = 0; i < p->marks_length; i++) {
        double x = across(p, p->marks[i].seconds);
        text(f, x, waveform_place.top - 24, "name", p->marks[i].name);
        text(f, x, waveform_place.top - 8, "how", p->marks[i].how);
        line(f, x, waveform_place.top, x, frets_place.bottom, "mark");
    }
}

/* The least and the greatest sample of a column, in millimetres. */
static void extremes(const plot *p, size_t column, double *least, double *greatest)
{
    size_t first = p->frames * column / COLUMNS, end = p->frames * (column + 1) / COLUMNS;
    *least = INFINITY;
    *greatest = -INFINITY;
    for (size_t i = first; i <= end && i < p->frames; i++) {
        *least = fmin(*least, p->samples[2 * i] * p->millimetres);
        *greatest = fmax(*greatest, p->samples[2 * i] * p->millimetres);
    }
}

static void waveform(FILE *f, const plot *p)
{
    panel a = waveform_place;
    double least[COLUMNS], greatest[COLUMNS], reach = 0;
    char label[16];
    for (size_t i = 0; i < COLUMNS; i++) {
        extremes(p, i, &least[i], &greatest[i]);
        reach = fmax(reach, fmax(-least[i], greatest[i]));
    }
    a.high = 0.5 * ceil(reach / 0.5 + 0.1);
    a.low = -a.high;
    for (double value = a.low; value <= a.high + 0.1; value += 0.5) {
        snprintf(label, sizeof label, "%.1f", value);
        value_line(f, a, value, label);
    }
    fprintf(f, "<path class=\"wave\" d=\"M");
    for (int i = 0; i < COLUMNS; i++)
        fprintf(f, "%d %.1fL", LEFT + i, up(a, greatest[i]));
    for (int i = COLUMNS - 1; i >= 0; i--)
        fprintf(f, "%d %.1f%s", LEFT + i, up(a, least[i]), i ? "L" : "Z\"/>\n");
    frame(f, a, "bridge pickup, mm");
}

/* The decimal logarithm of the stored energy; what lies below the panel is drawn on its bottom line. */
static void energy(FILE *f, const plot *p)
{
    static const char *const labels[] = {"10 nJ", "100 nJ", "1 \xc2\xb5J", "10 \xc2\xb5J", "100 \xc2\xb5J", "1 mJ", "10 mJ", "100 mJ", "1 J"};
    panel a = energy_place;
    double greatest = 0;
    for (size_t i = 0; i < p->blocks; i++)
        greatest = fmax(greatest, p->energy[i]);
    a.high = fmin(0, fmax(a.low + 1, log10(fmax(greatest, 1e-30)) + 0.2));
    for (int decade = (int)a.low; decade <= a.high; decade++)
        value_line(f, a, decade, labels[decade - (int)a.low]);
    fprintf(f, "<path class=\"energy\" d=\"M");
    for (size_t i = 0; i < p->blocks; i++) {
        double value = fmin(a.high, fmax(a.low, log10(fmax(p->energy[i], 1e-30))));
        fprintf(f, "%.2f %.1f%s", across_blocks(p, i + 1), up(a, value), i + 1 < p->blocks ? "L" : "\"/>\n");
    }
    frame(f, a, "stored energy");
}

/* A stroke for each stretch of blocks in which a fret was touched, wide enough to be seen. */
static void touched_frets(FILE *f, const plot *p)
{
    panel a = frets_place;
    char label[16];
    a.high = p->frets + 1;
    for (unsigned fret = 5; fret <= p->frets; fret += 5) {
        snprintf(label, sizeof label, "%u", fret);
        value_line(f, a, fret, label);
    }
    fprintf(f, "<path class=\"touched\" d=\"");
    for (unsigned fret = 1; fret <= p->frets; fret++)
        for (size_t i = 0, end; i < p->blocks; i = end + 1) {
            for (end = i; end < p->blocks && p->touched[end] >> (fret - 1) & 1; end++)
                ;
            if (end > i)
                fprintf(f, "M%.2f %.1fH%.2f", across_blocks(p, i), up(a, fret), fmax(across_blocks(p, end), across_blocks(p, i) + 1));
        }
    fprintf(f, "\"/>\n");
    frame(f, a, "frets touched");
}

/* The first cell begins at the left, the others end in columns of the same width. */
static void sheet_line(FILE *f, const sheet_row *row, int y)
{
    text(f, LEFT, y, "caption", row->cells[0]);
    for (int i = 1; i < CELLS; i++)
        text(f, LEFT + COLUMNS * i / (CELLS - 1), y, "value", row->cells[i]);
}

static void sheet(FILE *f, const plot *p)
{
    text(f, (LEFT + RIGHT) / 2.0, SHEET_TOP - ROW / 2, "axis", p->sheet);
    sheet_line(f, &sheet_heads, SHEET_TOP + ROW);
    for (size_t i = 0; i < p->rows_length; i++)
        sheet_line(f, &p->rows[i], SHEET_TOP + ROW * ((int)i + 2));
}

int write_plot(const char *path, const plot *p)
{
    FILE *f = fopen(path, "w");
    if (!f)
        return 1;
    head(f, p);
    seconds(f, p);
    waveform(f, p);
    energy(f, p);
    touched_frets(f, p);
    marks(f, p);
    sheet(f, p);
    fprintf(f, "</svg>\n");
    int failed = ferror(f);
    failed |= fclose(f);
    return failed != 0;
}
