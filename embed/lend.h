/* Memory to lend to a call, with a margin on both sides that the call must leave alone. */
#ifndef LEND_H
#define LEND_H

#include <stddef.h>
#include <stdint.h>
#include <stdlib.h>
#include <string.h>

enum { MARGIN = 64, UNTOUCHED = 0x5A };

/* Lends so many bytes, each holding `fill`; a pointer that is not null, also for none. */
static void *lend(size_t bytes, int fill)
{
    uint8_t *all = malloc(bytes + 2 * MARGIN);
    if (all == NULL)
        abort();
    memset(all, UNTOUCHED, bytes + 2 * MARGIN);
    memset(all + MARGIN, fill, bytes);
    return all + MARGIN;
}

/* Whether both margins are as they were. */
static int margins_stand(const void *lent, size_t bytes)
{
    const uint8_t *from = (const uint8_t *)lent;
    for (size_t i = 1; i <= MARGIN; i++)
        if (from[0 - i] != UNTOUCHED || from[bytes + i - 1] != UNTOUCHED)
            return 0;
    return 1;
}

static void give_back(void *lent)
{
    if (lent != NULL)
        free((uint8_t *)lent - MARGIN);
}

#endif
