/* What a refusal means, in words for the one who runs a host. */
#ifndef REFUSALS_H
#define REFUSALS_H

#include <stdint.h>

/* Says on stderr which call was refused, with which number, what it means and at which time of the phrase, and ends the program with status 1. */
_Noreturn void refused(const char *call, uint32_t number, double seconds);

#endif
