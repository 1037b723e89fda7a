/* What the calls answered and met, printed as tables. */
#include "report.h"
#include <stdio.h>
#include "balance.h"
#include "booked.h"
#include "bounds.h"
#include "list.h"
#include "mirror.h"
#include "nearest.h"
#include "pulling.h"

/* A blank stands where a function has no such refusal. */
static void print_row(const function_tally *row)
{
    unsigned long long calls = 0;
    for (int refusal = 0; refusal < REFUSALS; refusal++)
        calls += row->answered[refusal];
    printf("%-15s%10llu%10llu", row->name, calls, row->answered[0]);
    for (int refusal = 1; refusal < REFUSALS; refusal++)
        if (row->refusals >> refusal & 1)
            printf("%8llu", row->answered[refusal]);
        else
            printf("%8s", "");
    printf("\n");
}

static void print_ties(void)
{
    static const char *const places[] = {"away from p", "at p", "at p under the finger", "of the finger", "of the pressing finger"};
    printf("ties; solution above 0 and its even neighbour below, above; below 0 and below, above\n");
    for (int place = 0; place < TIE_PLACES; place++)
        printf("%-25s%10llu%10llu%10llu%10llu\n", places[place], ties[place][1][1], ties[place][1][0], ties[place][0][1], ties[place][0][0]);
    printf("mirrored runs: %llu pairs; pairs of steps that moved %llu, of these with a tie %llu, with a contact dropped %llu; refused %llu\n", mirrored.pairs,
           mirrored.moved, mirrored.tied, mirrored.dropped, mirrored.refused);
}

/* How often something was met, which must be at least once. */
typedef struct {
    const char *what;
    const unsigned long long *number;
} counted;

static const counted contact_kinds[] = {
    {"accepted with a variable cleared at a point", &pulling.cleared},
    {"with the finger's cleared", &pulling.finger_cleared},
    {"with a contact dropped away from p", &pulling.away},
    {"at p, the string's alone", &pulling.at_p[1][0]},
    {"at p, the finger's alone", &pulling.at_p[0][1]},
    {"at p, both together", &pulling.at_p[1][1]},
    {"at p in three workings, the string's first", &pulling.at_p[1][2]},
    {"at p in three workings, the finger's first", &pulling.at_p[2][1]},
    {"accepted, the first moves would be refused", &pulling.let_through},
    {"refused, the first moves would be accepted", &pulling.stopped},
    {"refused with 13 or 14, nothing cleared", &pulling.kept},
};

static const counted list_kinds[] = {
    {"lists from a fresh start", &listed.lists},
    {"calls after which a list was checked", &listed.checked},
    {"with no loss, force and bend so far", &listed.conserved},
    {"of these after a slide", &listed.conserved_slid},
    {"bends accepted in a list", &listed.bends},
    {"with a work above 0", &listed.adding},
    {"with a work below 0", &listed.taking},
    {"while the string is on the neck", &listed.bends_on_neck},
    {"while the finger presses", &listed.bends_pressed},
    {"bends refused in a list", &listed.bends_refused},
    {"bends accepted, the old tension out of order", &mended.bends},
    {"slides accepted in a list", &listed.slides},
    {"from a pressed place to another", &listed.slides_pressed},
    {"from a pressed place to a free one", &listed.slides_off},
    {"from a free place to a pressed one", &listed.slides_onto},
    {"slides refused in a list", &listed.slides_refused},
    {"slides accepted, the old place out of order", &mended.slides},
};

static const counted book_kinds[] = {
    {"booked calls accepted, a column below 0", &booking.negative},
    {"a column at an end of its range", &booking.at_end},
    {"a high word raised by a carry", &booking.raised},
    {"a high word lowered by a borrow", &booking.lowered},
    {"a column out of its range after the call", &booking.left_range},
    {"a stored energy of more than a signed word", &booking.long_stored},
    {"a work of more than a signed word", &booking.long_work},
    {"booked steps that make the count its largest", &booking.last_step},
    {"with a variable cleared at a point", &booking.cleared},
    {"with the finger's cleared", &booking.finger_cleared},
    {"booked bends, the old tension out of order", &booking.mended},
    {"refused, columns out of range by 1 at most", &booking.next_to_end},
    {"lists whose steps and bends are all booked", &listed.books},
    {"calls after which a list's book was checked", &listed.books_checked},
    {"of these after a slide", &listed.books_slid},
    {"of these after a bend", &listed.books_bent},
    {"with a loss", &listed.books_lost},
    {"with a work below 0", &listed.books_taken},
    {"with a rounding work above 0", &listed.rounded_up},
    {"with a rounding work below 0", &listed.rounded_down},
    {"steps refused in a list for another book", &listed.other_books},
};

/* The tables of such numbers. */
static const struct {
    const char *title;
    const counted *kinds;
    size_t length;
} tables[] = {
    {"steps by the contacts cleared and dropped", contact_kinds, sizeof contact_kinds / sizeof *contact_kinds},
    {"lists of calls, bends and slides", list_kinds, sizeof list_kinds / sizeof *list_kinds},
    {"booked steps and bends, and books of lists", book_kinds, sizeof book_kinds / sizeof *book_kinds},
};
enum { TABLES = sizeof tables / sizeof *tables };

static void print_kinds(void)
{
    for (int table = 0; table < TABLES; table++) {
        printf("%s\n", tables[table].title);
        for (size_t kind = 0; kind < tables[table].length; kind++)
            printf("%-45s%10llu\n", tables[table].kinds[kind].what, *tables[table].kinds[kind].number);
    }
}

void print_report(void)
{
    function_tally all = {.name = "all"};
    printf("%-15s%10s%10s", "function", "calls", "accepted");
    for (int refusal = 1; refusal < REFUSALS; refusal++)
        printf("%8d", refusal);
    printf("\n");
    for (int f = 0; f < FUNCTIONS; f++) {
        print_row(&functions[f]);
        all.refusals |= functions[f].refusals;
        for (int refusal = 0; refusal < REFUSALS; refusal++)
            all.answered[refusal] += functions[f].answered[refusal];
    }
    print_row(&all);
    printf("accepted steps checked for balance: %llu\n", balanced.steps);
    printf("of these on the neck %llu, under the finger %llu, with a residual at its limit %llu, with loss %llu, with work %llu\n", balanced.on_neck,
           balanced.under_finger, balanced.at_limit, balanced.lossy, balanced.worked);
    printf("bounds met to the unit: of 13 %llu, of 14 %llu\n", bounds_met[13], bounds_met[14]);
    printf("blocks begun with a surplus of samples: odd %llu, even %llu; stopped by a step's refusal %llu\n", surpluses.odd, surpluses.even, surpluses.stopped);
    print_kinds();
    print_ties();
}

static int met(unsigned long long number, const char *what)
{
    if (number == 0)
        printf("fuzz: %s: never met\n", what);
    return number > 0;
}

/* Whether each kind of tie was met, each number of the tables, and each kind of surplus and of mirrored steps. */
static int kinds_met(void)
{
    int all = 1;
    for (int kind = 0; kind < 4 * TIE_PLACES; kind++)
        all &= met(ties[kind / 4][kind / 2 % 2][kind % 2], "a kind of tie");
    for (int table = 0; table < TABLES; table++)
        for (size_t kind = 0; kind < tables[table].length; kind++)
            all &= met(*tables[table].kinds[kind].number, tables[table].kinds[kind].what);
    all &= met(surpluses.odd, "an odd surplus of samples") & met(surpluses.even, "an even surplus of samples");
    all &= met(surpluses.stopped, "a block with a surplus of samples that is stopped");
    all &= met(mirrored.dropped, "mirrored steps with a contact dropped");
    return all & met(mirrored.moved, "mirrored steps") & met(mirrored.tied, "mirrored ties") & met(mirrored.refused, "mirrored refusals");
}

/* Whether each function was accepted, and gave each of its refusals. */
static int answers_met(void)
{
    int all = 1;
    for (int f = 0; f < FUNCTIONS; f++)
        for (int refusal = 0; refusal < REFUSALS; refusal++)
            if ((refusal == 0 || functions[f].refusals >> refusal & 1) && functions[f].answered[refusal] == 0) {
                printf("fuzz: %s: %s %d was never met\n", functions[f].name, refusal ? "refusal" : "answer", refusal);
                all = 0;
            }
    return all;
}

int all_met(void) { return answers_met() & kinds_met(); }
