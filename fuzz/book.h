/* 02, item 6: an energy book by the rule: what it is refused for, and what a call books in it. */
#ifndef BOOK_H
#define BOOK_H

#include "stored_energy.h"

#define COLUMN ((wide)1 << 120) /* the greatest column that is accepted, and below 0 the least */
enum { COLUMNS = 4 };

/* What a call books, or a list of them: the stored energy after it, and what is added to the other columns and to the count. */
typedef struct {
    wide stored, work, loss, rounding;
    uint32_t steps;
} entry;

sv_wide words_of(wide number);
uint32_t column_refusal(sv_book book); /* 17, or 0 */
uint32_t book_refusal(sv_book book);   /* a step's: 16, 17 or 0 */
sv_book booked(sv_book book, entry e); /* the book with the entry in it, for a book that is not refused */

#endif
