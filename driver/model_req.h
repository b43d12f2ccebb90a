/* The calls of requests on a `struct tree`, which has services in place of subjects. */
#ifndef MODEL_REQ_H
#define MODEL_REQ_H

#include "model.h"
#include "tally.h"

extern const struct model req_model;

model_call model_req_register, model_req_unregister, model_req_poll_push;

/* What a call can meet, counted where it is met. */
enum req_branch { REQ_JOINS_BEFORE, REQ_LOOP_BACK, REQ_NO_ENTRY, REQ_BRANCHES };

extern struct branch req_branches[REQ_BRANCHES];

#endif
