/* Lent buffers: each in a page of its own, flush to its end or its start, with a guard on either side where every access faults and a pattern in the rest.
   The library is given this page and the oracle a second one: they hold the same before a call, and must hold the same after it. */
#ifndef LENT_H
#define LENT_H

#include <stddef.h>

enum { PAGE = 4096 };
#define VAST ((size_t)1 << 32)

typedef struct {
    const char *name;
    size_t element;        /* bytes of an element */
    size_t start, length;  /* where the buffer starts in its page, in bytes, and the number of its elements */
    unsigned char *page;   /* the library's page, for what it may write */
    unsigned char *shown;  /* the same page at another address, where a write faults: for what is lent as const */
    unsigned char *oracle; /* the oracle's page */
} lent;

void lent_open(lent *buffer, const char *name, size_t element);
void lent_open_vast(lent *buffer, const char *name); /* 2^32 elements and up to 1024 more; what lies past the first page cannot be written */
void lent_place(lent *buffer, size_t length);        /* a buffer of so many elements, which hold the pattern */
void lent_place_vast(lent *buffer, size_t length);   /* a vast buffer of 2^32 elements and so many more, all zero, and settled */
void lent_settle(lent *buffer);                      /* what the library's page holds, the oracle's shall hold too */
void lent_copy(lent *to, const lent *from);          /* placed and filled alike, and settled */
void lent_expect(lent *buffer, const lent *like);    /* what the library's page of a copy holds, the oracle's shall hold */
void lent_agree(const lent *buffer);                 /* a fault unless both pages hold the same, pattern included */
void lent_watch(void);                               /* from now on an access to a guard, or a write to what is const, is reported by the buffer's name */

static inline void *lent_numbers(const lent *buffer) { return buffer->page + buffer->start; }
static inline const void *lent_shown(const lent *buffer) { return buffer->shown + buffer->start; }
static inline void *lent_oracle(const lent *buffer) { return buffer->oracle + buffer->start; }

/* Whose pages a call is given, to be written and as const. */
typedef enum { LIBRARY, ORACLE } side;
static inline void *given(side whose, const lent *buffer) { return whose == LIBRARY ? lent_numbers(buffer) : lent_oracle(buffer); }
static inline const void *shown(side whose, const lent *buffer) { return whose == LIBRARY ? lent_shown(buffer) : lent_oracle(buffer); }

#endif
