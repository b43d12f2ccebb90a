/* Numbers of the transmit calls, drawn near what a state has and near limits. */
#ifndef RANDOM_TX_H
#define RANDOM_TX_H

#include <stddef.h>
#include <stdint.h>

/* Sets of priorities that often meet in their most urgent one, and empty ones. */
uint8_t random_set(void);

/* A pick's mask: often all priorities, often one. */
uint8_t random_mask(void);

/* 8 or 64, or near them. */
uint32_t random_mtu(void);

/* Whether a settlement has a frame, and its last byte: any byte. */
uint8_t random_frame(void);
uint8_t random_last(void);

/* The transmit queue of a state by its length, or NULL where no state is so long. */
const uint8_t *tx_queue_in(const uint8_t *bytes, size_t len);

/*
 * An entry, and a frame's priority and length: mostly one that is registered, the open
 * pick's priority, and a length that its mtu allows. The queue may be any bytes, or
 * NULL.
 */
uint32_t random_entry(const uint8_t *queue);
uint32_t random_priority(const uint8_t *queue);
uint32_t random_length(const uint8_t *queue);

#endif
