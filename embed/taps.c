/* A day of taps: three strips are opened, taps draw on them, one is closed. What it prints is in taps.out. */
#include "drecerunya.h"

#include <stdio.h>

enum { CODE, X, Y, COUNT, VISITS };

/* What a tap in slot u draws on. */
static void tap(const uint32_t *pool, size_t len, uint32_t u)
{
    uint32_t answer[5];
    switch (drecerunya_first_to_end(pool, len, u, answer)) {
    case DRECERUNYA_DONE:
        printf("slot %u: strip %u (%u to %u), %u visits\n", u, answer[X] % 65536, answer[Y], answer[X] / 65536, answer[VISITS]);
        break;
    case DRECERUNYA_NOTHING:
        printf("slot %u: no strip covers it\n", u);
        break;
    default:
        printf("slot %u: refused, code %u\n", u, answer[CODE]);
    }
}

int main(void)
{
    static uint32_t pool[DRECERUNYA_CELLS(15)];
    const size_t len = sizeof pool / sizeof pool[0];
    const uint32_t slots[] = {4, 12, 13, 21};
    uint32_t answer[5];

    if (drecerunya_set_up(pool, len) != DRECERUNYA_DONE || drecerunya_open(pool, len, 10, 20, 1, answer) != DRECERUNYA_DONE ||
        drecerunya_open(pool, len, 5, 20, 2, answer) != DRECERUNYA_DONE || drecerunya_open(pool, len, 12, 12, 3, answer) != DRECERUNYA_DONE)
        return 1;
    for (size_t i = 0; i < sizeof slots / sizeof slots[0]; i++)
        tap(pool, len, slots[i]);
    if (drecerunya_close(pool, len, 10, 20, 1, answer) != DRECERUNYA_DONE)
        return 1;
    tap(pool, len, 13);
    return 0;
}
