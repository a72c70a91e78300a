/* Memory to lend. A slice begins directly behind a page that can't be touched or ends directly before one; on its other
 * side are marked bytes. After a call it is compared with what it was. Who includes this names the slices before, in an
 * enum with REGIONS last. */
#ifndef GUARDED_H
#define GUARDED_H

#include <stdint.h>
#include <string.h>
#include <sys/mman.h>

#define ROOM 73728 /* bytes between the two pages */
#define PAGE 4096
#define BORDER 64
#define MARK 0xA5

static struct region {
    uint8_t *low, *at;
    size_t length;
    size_t from, to; /* what a call that is done may write */
    uint8_t copy[ROOM];
    int lent;
} regions[REGIONS];

static int open_regions(void)
{
    for (int i = 0; i < REGIONS; i++) {
        uint8_t *p = mmap(NULL, ROOM + 2 * PAGE, PROT_NONE, MAP_PRIVATE | MAP_ANONYMOUS, -1, 0);
        if (p == MAP_FAILED || mprotect(p + PAGE, ROOM, PROT_READ | PROT_WRITE))
            return 0;
        regions[i].low = p + PAGE;
    }
    return 1;
}

static void take_back(void)
{
    for (int i = 0; i < REGIONS; i++)
        regions[i].lent = 0;
}

/* a slice of n bytes with the first of them from bytes, zeros behind; null: NULL for an empty one */
static void *lend(int i, const void *bytes, size_t have, size_t n, int at_end, int null)
{
    struct region *r = &regions[i];
    r->at = at_end ? r->low + ROOM - n : r->low;
    r->length = n;
    r->from = r->to = 0;
    r->lent = 1;
    if (at_end)
        memset(r->at - BORDER, MARK, BORDER);
    else
        memset(r->at + n, MARK, BORDER);
    size_t known = have < n ? have : n;
    if (known)
        memcpy(r->at, bytes, known);
    memset(r->at + known, 0, n - known);
    memcpy(r->copy, r->at, n);
    return n == 0 && null ? NULL : r->at;
}

static inline void may_write(int i, size_t from, size_t to)
{
    regions[i].from = from;
    regions[i].to = to;
}

static int border_kept(const struct region *r)
{
    const uint8_t *p = r->at == r->low ? r->at + r->length : r->at - BORDER;
    for (int k = 0; k < BORDER; k++)
        if (p[k] != MARK)
            return 0;
    return 1;
}

/* no byte outside from to to has changed */
static int kept_outside(const struct region *r, size_t from, size_t to)
{
    if (to > r->length || from > to)
        return 0;
    return memcmp(r->at, r->copy, from) == 0 && memcmp(r->at + to, r->copy + to, r->length - to) == 0;
}

#endif
