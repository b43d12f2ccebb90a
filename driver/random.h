/* Random numbers from a seed, and numbers drawn to lie near limits. */
#ifndef RANDOM_H
#define RANDOM_H

#include <stdbool.h>
#include <stddef.h>
#include <stdint.h>

void seed_random(uint64_t seed);
uint64_t random_bits(void);

/* A number below the count, which is not 0. */
uint32_t below(uint32_t count);

/* Yes once in so many times. */
bool one_in(uint32_t count);

/* A number from 0 to the most: mostly a small one, sometimes one near the most. */
uint32_t random_size(uint32_t most);

/*
 * A number for an argument that must be below the limit: allowed, at the limit,
 * past it, or past it with low bits that are allowed.
 */
uint32_t number_near(uint32_t limit);

void random_bytes(uint8_t *bytes, size_t len);

/* Fills in the numbers from 0 to count - 1 in a random order; count is at most 256. */
void random_order(uint8_t *order, unsigned count);

#endif
