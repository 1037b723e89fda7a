/* The service sheet: a book's columns in decimal. */
#include "sheet.h"
#include <stdio.h>

const sheet_row sheet_heads = {{"note", "steps", "stored energy", "work", "loss", "rounding work"}};

sheet_row sheet_of(const char *name, const char *how, sv_book book)
{
    sheet_row row;
    wide numbers[CELLS] = {0, book.count, wide_of(book.stored), wide_of(book.work), wide_of(book.loss), wide_of(book.rounding)};
    snprintf(row.cells[0], DECIMAL, "%s %s", name, how);
    for (int i = 1; i < CELLS; i++)
        decimal(numbers[i], row.cells[i]);
    return row;
}

void print_sheet_row(const sheet_row *row)
{
    printf("%-12s%9s", row->cells[0], row->cells[1]);
    for (int i = 2; i < CELLS; i++)
        printf("%24s", row->cells[i]);
    printf("\n");
}
