/* Lines of loop-back message reception: `lb ..`. */
#include "replay_tree.h"
#include "state_lb.h"

static void run_open(struct state *state, const uint32_t *n)
{
    open_state(state, GOMXELI_LB_LENGTH, lb_open, n);
}

static void run_walk(struct state *state, const uint32_t *n)
{
    print_walk(state, n, lb_hub_push_start, lb_hub_push_next);
}

static void run_read_back(struct state *state, const uint32_t *n)
{
    static struct loop_back loop_back;
    (void)n;
    if (print_not_whole(state, lb_unregister))
        return;
    loop_back_read(state->bytes, &loop_back);
    print_walk_entry(loop_back.walk);
    print_pairs(" ent", &loop_back.entries);
}

#define ANY ANY_NUMBER

const struct verb lb_verbs[] = {
    {"open", 0, {0}, NULL, NULL, run_open},
    {"R", 2, {ANY, ANY}, lb_register, print_wake, NULL},
    {"U", 1, {ANY}, lb_unregister, print_wake, NULL},
    {"S", 1, {ANY}, lb_hub_push_start, print_flag, NULL},
    {"N", 0, {0}, lb_hub_push_next, print_named, NULL},
    {"F", 1, {ANY}, NULL, NULL, run_walk},
    {"D", 0, {0}, NULL, NULL, run_read_back},
    {NULL, 0, {0}, NULL, NULL, NULL},
};
