/* The calls of regular message reception on a `struct registry`. */
#ifndef MODEL_REG_H
#define MODEL_REG_H

#include "model.h"
#include "tally.h"

model_call model_reg_register, model_reg_unregister, model_reg_poll_pop, model_reg_hub_push_start,
    model_reg_hub_push_next;

/* Document 01's cases, each counted where it is met. */
enum reg_branch {
    JOINS_WAITING,
    JOINS_ACTIVE,
    TAKES_SLOT,
    LEAVES_WAITING,
    LEAVES_NON_HEAD,
    LEAVES_LAST,
    LEAVES_MARK_TO_EQUAL,
    LEAVES_MARK_TO_NEXT,
    LEAVES_BEFORE_MARKED,
    LEAVES_TO_EQUAL,
    WALK_MOVES,
    WALK_ENDS,
    POLLS_MARK,
    POLLS_LAST_GAP,
    POLLS_AGAIN,
    POLLS_AGAIN_IN_VAIN,
    NAMES_MORE,
    NAMES_LAST,
    REG_BRANCHES
};

extern struct branch reg_branches[REG_BRANCHES];

#endif
