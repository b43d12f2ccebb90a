/* The calls of loop-back message reception on a `struct loop_back`. */
#ifndef MODEL_LB_H
#define MODEL_LB_H

#include "model.h"
#include "tally.h"

extern const struct model lb_model;

model_call model_lb_register, model_lb_unregister, model_lb_hub_push_start, model_lb_hub_push_next;

/* What a call can meet, counted where it is met. */
enum lb_branch {
    LB_JOINS_EQUALS,
    LB_JOINS_BEFORE,
    LB_WALK_MOVES,
    LB_WALK_MOVES_ON,
    LB_WALK_ENDS,
    LB_NAMES_EQUAL,
    LB_NAMES_OTHER,
    LB_NAMES_LAST,
    LB_BRANCHES
};

extern struct branch lb_branches[LB_BRANCHES];

#endif
