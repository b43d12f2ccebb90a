/* Lines of requests: `req ..`. */
#include "replay_tree.h"

static void run_open(struct state *state, const uint32_t *n)
{
    open_state(state, GOMXELI_REQ_LENGTH, req_open, n);
}

static void run_read_back(struct state *state, const uint32_t *n)
{
    static struct tree services;
    (void)n;
    if (print_not_whole(state, req_unregister))
        return;
    tree_read(state->bytes, &services);
    print_pairs("ent", &services);
}

#define ANY ANY_NUMBER

const struct verb req_verbs[] = {
    {"open", 0, {0}, NULL, NULL, run_open},
    {"R", 2, {ANY, ANY}, req_register, print_done, NULL},
    {"U", 1, {ANY}, req_unregister, print_done, NULL},
    {"F", 2, {ANY, UINT8_MAX}, req_poll_push, print_first, NULL},
    {"D", 0, {0}, NULL, NULL, run_read_back},
    {NULL, 0, {0}, NULL, NULL, NULL},
};
