/* Numbers that follow from a seed and a case alone, so that a case can be played again without those before it. No
 * expression takes two of them where it matters which is first: C does not say. */
#include "driver.h"

static size now;

size random_word(void) {
    now ^= now >> 12;
    now ^= now << 25;
    now ^= now >> 27;
    return now * 2685821657736338717ul;
}

void random_begin(size seed, size which) {
    now = (seed + 1) * 0x9E3779B97F4A7C15ul ^ (which + 1) * 0xD1B54A32D192ED03ul;
    if (!now)
        now = 1;
    for (u32 i = 0; i < 8; i++)
        random_word();
}

u32 pick(u32 below) {
    return (random_word() >> 32) % below;
}

flag once_in(u32 times) {
    return pick(times) == 0;
}

/* A number that is mostly below the limit, and else around it or huge: its low bits alone would often be in order. */
size wild(u32 limit) {
    if (!once_in(8))
        return pick(limit);
    size any = random_word(), low = pick(limit);
    const size odd[] = {limit, limit + 1, limit - 1, 8, 31, 32, 33, 63, 64, 128, 255, 256, 257, 65535, 65536,
                        1ul << 31, (1ul << 32) - 1, 1ul << 32, (1ul << 32) + low, (1ul << 32) * low,
                        1ul << 63, (1ul << 63) + low, ~0ul, ~0ul - low, any};
    return odd[pick(sizeof odd / sizeof *odd)];
}
