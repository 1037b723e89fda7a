/* The service sheet of a phrase: the energy book of each note as a row of texts, for the terminal and for the picture. */
#ifndef SHEET_H
#define SHEET_H

#include "wide.h"

enum { CELLS = 6 };

typedef struct {
    char cells[CELLS][DECIMAL];
} sheet_row;

extern const sheet_row sheet_heads; /* the name of each column */

sheet_row sheet_of(const char *name, const char *how, sv_book book);
void print_sheet_row(const sheet_row *row);

#endif
