#define _DEFAULT_SOURCE /* MAP_ANONYMOUS */

#include "lent.h"

#include <stdio.h>
#include <stdlib.h>
#include <string.h>
#include <sys/mman.h>
#include <unistd.h>

#include "random.h"

enum { GUARD = 64, GUARD_BYTE = 0xa5 };

enum place { MIDDLE, AT_START, AT_END, HEAP, NOWHERE, PLACES };

/* Memory between two pages that may not be touched. */
static uint8_t *area;
static size_t area_len;

static struct {
    uint8_t *bytes;
    size_t len;
    enum place place;
} lent;

static void fail(const char *what)
{
    perror(what);
    exit(2);
}

static void make_area(void)
{
    size_t page = (size_t)sysconf(_SC_PAGESIZE);
    area_len = (LENT_MOST + 2 * GUARD + page - 1) / page * page;
    uint8_t *all =
        mmap(NULL, area_len + 2 * page, PROT_READ | PROT_WRITE, MAP_PRIVATE | MAP_ANONYMOUS, -1, 0);
    if (all == MAP_FAILED)
        fail("mmap");
    area = all + page;
    if (mprotect(all, page, PROT_NONE) != 0 || mprotect(area + area_len, page, PROT_NONE) != 0)
        fail("mprotect");
}

static uint8_t *heap_block(size_t len)
{
    uint8_t *block = malloc(len);
    if (block == NULL && len > 0)
        fail("malloc");
    return block;
}

static uint8_t *find_place(enum place place, size_t len)
{
    switch (place) {
    case AT_START:
        return area;
    case AT_END:
        return area + area_len - len;
    case HEAP:
        return heap_block(len);
    case NOWHERE:
        return NULL;
    default:
        return area + GUARD + below((uint32_t)(area_len - 2 * GUARD - len) + 1);
    }
}

static bool guarded_before(void)
{
    return lent.place == MIDDLE || lent.place == AT_END;
}

static bool guarded_after(void)
{
    return lent.place == MIDDLE || lent.place == AT_START;
}

static bool guard_holds(const uint8_t *guard)
{
    for (unsigned i = 0; i < GUARD; i++)
        if (guard[i] != GUARD_BYTE)
            return false;
    return true;
}

uint8_t *lend(const uint8_t *bytes, size_t len)
{
    if (area == NULL)
        make_area();
    if (len > LENT_MOST)
        abort();
    lent.place = (enum place)below(len == 0 ? PLACES : NOWHERE);
    lent.len = len;
    lent.bytes = find_place(lent.place, len);
    if (guarded_before())
        memset(lent.bytes - GUARD, GUARD_BYTE, GUARD);
    if (guarded_after())
        memset(lent.bytes + len, GUARD_BYTE, GUARD);
    if (len > 0)
        memcpy(lent.bytes, bytes, len);
    return lent.bytes;
}

bool take_back(uint8_t *bytes)
{
    bool holds = (!guarded_before() || guard_holds(lent.bytes - GUARD)) &&
                 (!guarded_after() || guard_holds(lent.bytes + lent.len));
    if (lent.len > 0)
        memcpy(bytes, lent.bytes, lent.len);
    if (lent.place == HEAP)
        free(lent.bytes);
    return holds;
}
