#include "random.h"

static uint64_t state;

void seed_random(uint64_t seed)
{
    state = seed;
}

/* SplitMix64. */
uint64_t random_bits(void)
{
    state += 0x9e3779b97f4a7c15u;
    uint64_t z = state;
    z = (z ^ (z >> 30)) * 0xbf58476d1ce4e5b9u;
    z = (z ^ (z >> 27)) * 0x94d049bb133111ebu;
    return z ^ (z >> 31);
}

uint32_t below(uint32_t count)
{
    return (uint32_t)((random_bits() >> 32) * count >> 32);
}

bool one_in(uint32_t count)
{
    return below(count) == 0;
}

static uint32_t least(uint32_t a, uint32_t b)
{
    return a < b ? a : b;
}

uint32_t random_size(uint32_t most)
{
    switch (below(16)) {
    case 0:
        return most - least(most, below(3));
    case 1:
        return below(most + 1);
    case 2:
    case 3:
    case 4:
        return least(most, below(40));
    default:
        return least(most, below(8));
    }
}

/* The limits of all kinds and of the bytes that hold them, with their neighbours. */
static uint32_t known_limit(void)
{
    static const uint32_t limits[] = {
        0,     1,           2,           7,           8,           9,     31,    32,    33,
        63,    64,          65,          127,         128,         221,   222,   223,   224,
        225,   254,         255,         256,         257,         511,   512,   8190,  8191,
        8192,  8193,        16383,       16384,       32767,       32768, 65534, 65535, 65536,
        65537, 0x7fffffffu, 0x80000000u, 0xfffffffeu, 0xffffffffu,
    };
    return limits[below(sizeof limits / sizeof limits[0])];
}

uint32_t number_near(uint32_t limit)
{
    uint32_t allowed = limit > 0 ? below(limit) : 0;
    switch (below(8)) {
    case 0:
        return limit + below(3) - least(limit, 1);
    case 1:
        return known_limit();
    case 2:
        return allowed + (256u << (8 * below(3)));
    case 3:
        return one_in(2) ? (uint32_t)random_bits() : below(2 * limit + 2);
    default:
        return allowed;
    }
}

void random_bytes(uint8_t *bytes, size_t len)
{
    size_t i = 0;
    for (; i + 8 <= len; i += 8) {
        uint64_t bits = random_bits();
        for (unsigned j = 0; j < 8; j++)
            bytes[i + j] = (uint8_t)(bits >> (8 * j));
    }
    for (; i < len; i++)
        bytes[i] = (uint8_t)random_bits();
}

void random_order(uint8_t *order, unsigned count)
{
    for (unsigned i = 0; i < count; i++) {
        unsigned j = below(i + 1);
        order[i] = order[j];
        order[j] = (uint8_t)i;
    }
}
