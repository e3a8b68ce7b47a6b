/* Guard pages for the fuzzers' harness: a stretch of memory between two of them for each slice that a call is lent. */
#define _DEFAULT_SOURCE
#include "guarded.h"

#include <stdlib.h>
#include <string.h>
#include <sys/mman.h>

enum { SLOTS = 12, PAGE = 65536, INSIDE = 5 * PAGE, WATCHED = 64, MARK = 0xA7 };

static uint8_t *starts[SLOTS];
static uint8_t *befores[SLOTS];
static uint8_t *watched[SLOTS];
static size_t used;

static uint8_t *map(size_t length, int protection)
{
    uint8_t *start = mmap(NULL, length, protection, MAP_PRIVATE | MAP_ANONYMOUS, -1, 0);
    if (start == MAP_FAILED)
        abort();
    return start;
}

void lend_anew(void)
{
    for (size_t slot = 0; slot < SLOTS && !starts[slot]; slot++) {
        starts[slot] = map(INSIDE + 2 * PAGE, PROT_NONE) + PAGE;
        befores[slot] = map(INSIDE, PROT_READ | PROT_WRITE);
        if (mprotect(starts[slot], INSIDE, PROT_READ | PROT_WRITE))
            abort();
    }
    used = 0;
}

lent lend(const uint8_t *content, size_t length, int begins)
{
    if (used == SLOTS || length + WATCHED > INSIDE)
        abort();
    uint8_t *bytes = begins ? starts[used] : starts[used] + INSIDE - length;
    watched[used] = begins ? bytes + length : bytes - WATCHED;
    memset(watched[used], MARK, WATCHED);
    if (content)
        memcpy(befores[used], content, length);
    else
        memset(befores[used], 0xEE, length);
    memcpy(bytes, befores[used], length);
    return (lent){bytes, length, befores[used++]};
}

int unchanged_from(const lent *slice, size_t from)
{
    return from >= slice->length || !memcmp(slice->bytes + from, slice->before + from, slice->length - from);
}

int unchanged(const lent *slice)
{
    return unchanged_from(slice, 0);
}

int neighbours_hold(void)
{
    for (size_t slot = 0; slot < used; slot++)
        for (size_t at = 0; at < WATCHED; at++)
            if (watched[slot][at] != MARK)
                return 0;
    return 1;
}
