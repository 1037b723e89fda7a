/* 02, item 6: an energy book by the rule. */
#include "book.h"

sv_wide words_of(wide number) { return (sv_wide){(uint64_t)((unsigned_wide)number >> 64), (uint64_t)number}; }

uint32_t column_refusal(sv_book book)
{
    wide columns[COLUMNS] = {wide_of(book.stored), wide_of(book.work), wide_of(book.loss), wide_of(book.rounding)};
    for (int i = 0; i < COLUMNS; i++)
        if (columns[i] < -COLUMN || columns[i] > COLUMN)
            return 17;
    return 0;
}

uint32_t book_refusal(sv_book book) { return book.count == UINT32_MAX ? 16 : column_refusal(book); }

static sv_wide sum(sv_wide column, wide added) { return words_of(wide_of(column) + added); }

sv_book booked(sv_book book, entry e)
{
    return (sv_book){words_of(e.stored), sum(book.work, e.work), sum(book.loss, e.loss), sum(book.rounding, e.rounding), book.count + e.steps};
}
