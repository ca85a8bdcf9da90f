/* An output between guards: a pattern in it and round it shows which bytes were written. */
#ifndef LENT_H
#define LENT_H

#include <stddef.h>
#include <stdint.h>

enum { GUARD = 64, ROOM = 16384 };

struct lent {
    uint8_t bytes[GUARD + ROOM + GUARD];
};

static uint8_t pattern(size_t at)
{
    return (uint8_t)((at * 29) ^ 0x5A);
}

/* The output, with the pattern in it and round it. */
static uint8_t *lend(struct lent *lent)
{
    for (size_t at = 0; at < sizeof lent->bytes; at++)
        lent->bytes[at] = pattern(at);
    return lent->bytes + GUARD;
}

/* Whether all bytes but the first of the output kept their values. */
static int kept_beyond(const struct lent *lent, size_t length)
{
    for (size_t at = 0; at < sizeof lent->bytes; at++) {
        int written = at >= GUARD && at < GUARD + length;
        if (!written && lent->bytes[at] != pattern(at))
            return 0;
    }
    return 1;
}

#endif
