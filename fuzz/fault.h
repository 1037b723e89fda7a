/* Which call is being made, and the end of the program where it is found at fault. */
#ifndef FAULT_H
#define FAULT_H

#include "../include/string_voice.h"

extern unsigned long long calls_made;

void watch_calls(unsigned long long seed); /* a fault that a sanitizer finds is the call's too */
void next_call(const char *function, sv_setup setup);
__attribute__((noreturn, format(printf, 1, 2))) void fault(const char *format, ...); /* says what is wrong, and how to repeat the call */

#endif
