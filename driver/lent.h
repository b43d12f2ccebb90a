/*
 * A buffer to lend to a call, with something on both sides that shows a step out
 * of it: guard bytes, a page that may not be touched, or the end of a heap block,
 * which valgrind and the address sanitizer watch.
 */
#ifndef LENT_H
#define LENT_H

#include <stdbool.h>
#include <stddef.h>
#include <stdint.h>

/* A copy of the bytes, which are at most LENT_MOST. NULL only where len is 0. */
uint8_t *lend(const uint8_t *bytes, size_t len);

/*
 * Copies the lent bytes back and gives the buffer up. False where a guard byte
 * has changed.
 */
bool take_back(uint8_t *bytes);

enum { LENT_MOST = 16000 };

#endif
