/* Which call is being made, and the end of the program where it is found at fault. */
#include "fault.h"
#include <signal.h>
#include <stdarg.h>
#include <stdio.h>
#include <stdlib.h>
#include <unistd.h>

unsigned long long calls_made;

static unsigned long long seed;
static const char *function = "no call";
static sv_setup setup;

static void say_call(void)
{
    const sv_setup *s = &setup;
    fprintf(stderr, "fuzz: setup N %u, L %u, M %u, S %u, Z %u, K %u, m %u, p %u, e %u, bridge %u, neck %u\n", s->segments, s->tension, s->stiffness, s->viscous,
            s->plain, s->finger_stiffness, s->finger_mass, s->finger_place, s->pluck_place, s->bridge_place, s->neck_place);
    fprintf(stderr, "fuzz: call %llu of seed %llu, %s; 'fuzz/run %llu %llu' repeats it\n", calls_made, seed, function, calls_made, seed);
    fprintf(stderr, "fuzz: %llu calls, 1 fault\n", calls_made);
}

static void end_aborted(int signal)
{
    (void)signal;
    say_call();
    _exit(1);
}

/* Both sanitizers abort after their report, of a trap too, so that the call is said after it. */
const char *__asan_default_options(void) { return "abort_on_error=1:handle_sigill=1:handle_sigtrap=1:handle_sigfpe=1"; }
const char *__ubsan_default_options(void) { return "abort_on_error=1"; }

void watch_calls(unsigned long long from_seed)
{
    seed = from_seed;
    signal(SIGABRT, end_aborted);
}

void next_call(const char *of_function, sv_setup of_setup)
{
    function = of_function;
    setup = of_setup;
    calls_made++;
}

void fault(const char *format, ...)
{
    va_list values;
    va_start(values, format);
    fprintf(stderr, "fuzz: %s: ", function);
    vfprintf(stderr, format, values);
    fprintf(stderr, "\n");
    va_end(values);
    say_call();
    exit(1);
}
