/* Lent buffers: their pages, guards and patterns. */
#define _GNU_SOURCE
#include "lent.h"
#include <signal.h>
#include <stdint.h>
#include <stdio.h>
#include <stdlib.h>
#include <string.h>
#include <sys/mman.h>
#include <unistd.h>
#include "draw.h"
#include "fault.h"

enum { MOST = 16 };
static const lent *opened[MOST];
static size_t count;
static unsigned char pattern[PAGE];
static struct sigaction before; /* what was done about such an access before */

static void give_up(const char *what)
{
    perror(what);
    exit(2);
}

/* A page of memory that can be mapped at several addresses. */
static int new_page(void)
{
    int file = memfd_create("lent", 0);
    if (file < 0 || ftruncate(file, PAGE))
        give_up("a page");
    return file;
}

/* The page at a new address, with a guard on either side. */
static unsigned char *guarded(int file, int protection)
{
    unsigned char *guard = mmap(NULL, 3 * PAGE, PROT_NONE, MAP_PRIVATE | MAP_ANONYMOUS, -1, 0);
    if (guard == MAP_FAILED || mmap(guard + PAGE, PAGE, protection, MAP_SHARED | MAP_FIXED, file, 0) == MAP_FAILED)
        give_up("a guarded page");
    return guard + PAGE;
}

static void enter(const lent *buffer)
{
    if (count == MOST)
        fault("more than %d lent buffers", MOST);
    opened[count++] = buffer;
}

void lent_open(lent *buffer, const char *name, size_t element)
{
    if (count == 0)
        for (size_t i = 0; i < PAGE; i++)
            pattern[i] = (unsigned char)draw();
    int file = new_page();
    *buffer = (lent){name, element, PAGE, 0, guarded(file, PROT_READ | PROT_WRITE), guarded(file, PROT_READ), guarded(new_page(), PROT_READ | PROT_WRITE)};
    enter(buffer);
}

/* The page at a new address, and behind it what is never in memory: it is read as zeros, and cannot be written. */
static unsigned char *vast_from(int file, int protection)
{
    unsigned char *page = mmap(NULL, VAST * sizeof(int32_t) + PAGE, PROT_READ, MAP_PRIVATE | MAP_ANONYMOUS | MAP_NORESERVE, -1, 0);
    if (page == MAP_FAILED || mmap(page, PAGE, protection, MAP_SHARED | MAP_FIXED, file, 0) == MAP_FAILED)
        give_up("a vast buffer");
    return page;
}

void lent_open_vast(lent *buffer, const char *name)
{
    int file = new_page();
    *buffer = (lent){name, sizeof(int32_t), 0, VAST, vast_from(file, PROT_READ | PROT_WRITE), vast_from(file, PROT_READ), vast_from(new_page(), PROT_READ | PROT_WRITE)};
    enter(buffer);
}

void lent_place_vast(lent *buffer, size_t length)
{
    memset(buffer->page, 0, PAGE);
    lent_settle(buffer);
    buffer->length = VAST + length;
}

/* Without elements it lies at the end, where the first byte already is the guard's. */
void lent_place(lent *buffer, size_t length)
{
    size_t bytes = length * buffer->element;
    if (bytes > PAGE)
        fault("%zu elements of %s do not fit their page", length, buffer->name);
    buffer->start = bytes == 0 || one_in(2) ? PAGE - bytes : 0;
    buffer->length = length;
    memcpy(buffer->page, pattern, PAGE);
}

void lent_settle(lent *buffer) { memcpy(buffer->oracle, buffer->page, PAGE); }

void lent_copy(lent *to, const lent *from)
{
    to->start = from->start;
    to->length = from->length;
    memcpy(to->page, from->page, PAGE);
    lent_settle(to);
}

void lent_expect(lent *buffer, const lent *like) { memcpy(buffer->oracle, like->page, PAGE); }

static int64_t element_at(const lent *buffer, const unsigned char *page, size_t byte)
{
    size_t at = buffer->start + (byte - buffer->start) / buffer->element * buffer->element;
    int32_t number = 0;
    uint16_t half = 0;
    if (buffer->element == sizeof half)
        memcpy(&half, page + at, sizeof half);
    else
        memcpy(&number, page + at, sizeof number);
    return buffer->element == sizeof half ? half : number;
}

void lent_agree(const lent *buffer)
{
    if (!memcmp(buffer->page, buffer->oracle, PAGE))
        return;
    size_t byte = 0, end = buffer->start + buffer->length * buffer->element;
    while (buffer->page[byte] == buffer->oracle[byte])
        byte++;
    if (byte < buffer->start)
        fault("byte %zu before the %zu elements of %s was written", buffer->start - byte, buffer->length, buffer->name);
    if (byte >= end)
        fault("byte %zu after the %zu elements of %s was written", byte - end + 1, buffer->length, buffer->name);
    fault("element %zu of the %zu of %s is %lld, expected %lld", (byte - buffer->start) / buffer->element, buffer->length, buffer->name,
          (long long)element_at(buffer, buffer->page, byte), (long long)element_at(buffer, buffer->oracle, byte));
}

static const char *part_touched(const unsigned char *page, const unsigned char *touched)
{
    uintptr_t start = (uintptr_t)page, address = (uintptr_t)touched;
    if (address < start - PAGE || address >= start + 2 * PAGE)
        return NULL;
    return address < start ? "guard before the page" : address < start + PAGE ? "read-only elements" : "guard after the page";
}

static int say_touched(const lent *buffer, const unsigned char *touched)
{
    const char *by_library = part_touched(buffer->page, touched), *by_oracle = part_touched(buffer->oracle, touched);
    if (!by_library)
        by_library = part_touched(buffer->shown, touched);
    if (by_library || by_oracle)
        fprintf(stderr, "fuzz: the %s touched the %s of %s\n", by_library ? "library" : "oracle", by_library ? by_library : by_oracle, buffer->name);
    return by_library || by_oracle;
}

/* Says which buffer it was. The access is then made again, and the sanitizer reports it and ends the program. */
static void report(int signal, siginfo_t *info, void *context)
{
    (void)context;
    for (size_t i = 0; i < count && !say_touched(opened[i], info->si_addr); i++)
        continue;
    sigaction(signal, &before, NULL);
}

void lent_watch(void)
{
    struct sigaction action = {.sa_sigaction = report, .sa_flags = SA_SIGINFO};
    if (sigaction(SIGSEGV, &action, &before))
        give_up("a handler");
}
