/*
 * The tests of message and response transmission, which are the same for both: calls
 * of the kind under test, all with the numbers of a response registry.
 */
#ifndef C_TEST_TX_H
#define C_TEST_TX_H

#include "c_test_tree.h"

struct tx_kind {
    struct modelled_kind modelled;
    size_t queue_at; /* the transmit queue: 0, or after a tree */

    /* The calls, registering with an entry and its readiness. */
    call_function *open, *enter, *leave, *update, *pick, *settle;
};

extern const struct tx_kind test_txm, test_txr;

/* The one under test. */
extern const struct tx_kind *tx;

/* Its calls. Registering a message's entry is on the entry's own subject. */
call_function tx_open, tx_register, tx_unregister, tx_update, tx_pick, tx_settle;

unsigned own_subject(unsigned entry);

/* A set of one priority. */
#define P(priority) (1u << (priority))

/* Frames of a settlement: its flag comes first, its last byte ends a transfer or does not. */
enum { NO_FRAME = 0, A_FRAME = 1, ENDS = 64, GOES_ON = 191 };

/* A byte of the transmit queue. */
#define QUEUE_BYTE(state, at) ((state)->byte[tx->queue_at + (at)])

/* What c_test_tx_whole.c tests of the kind under test. */
void test_tx_whole(void);

#endif
