/* The calls of message and response transmission on a `struct transmission`. */
#ifndef MODEL_TX_H
#define MODEL_TX_H

#include "model.h"
#include "tally.h"

extern const struct model txm_model, txr_model;

/* Only registering differs. */
model_call model_txm_register, model_txr_register;
model_call model_tx_unregister, model_tx_update, model_tx_pick, model_tx_settle;

/* What a call can meet, counted where it is met, of both kinds together. */
enum tx_branch {
    TX_NOT_READY,
    TX_UPDATE_STAYS,
    TX_UPDATE_MOVES,
    TX_UPDATE_LEAVES,
    TX_PICKS_STARTED,
    TX_PICKS_BEFORE_UNMASKED,
    TX_STORES_MASK,
    TX_KEEPS_MASK,
    TX_LAST_TO_BACK,
    TX_LAST_LEAVES,
    TX_STARTS,
    TX_CONTINUES,
    TX_CONTINUES_ELSEWHERE,
    TX_NO_FRAME_STAYS,
    TX_NO_FRAME_MOVES,
    TX_WAKES_BY_STORED_ALONE,
    TX_WAKES_NOT_BY_PICKS,
    TX_BRANCHES
};

extern struct branch tx_branches[TX_BRANCHES];

#endif
