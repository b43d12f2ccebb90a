/* Lines of the lists: `mcq ..`. */
#include <stdio.h>

#include "replay.h"

static void run_open(struct state *state, const uint32_t *n)
{
    open_state(state, gomxeli_mcq_length(n[0], n[1]), mcq_open, n);
}

static void print_class(unsigned cls)
{
    printf("%u", cls);
}

static void print_lone(const struct lists *lists)
{
    unsigned lone = lists->entries;
    for (unsigned c = 0; c < lists->classes; c++)
        lone -= lists->list[c].count;
    printf(" lone=%u", lone);
}

/* A whole state has a class 0, so the call refuses only what is not whole. */
static void run_read_back(struct state *state, const uint32_t *n)
{
    static struct lists lists;
    (void)n;
    if (print_refusal(gomxeli_mcq_is_empty(state->bytes, state->len, 0)))
        return;
    lists_read(state->bytes, &lists);
    print_classes(&lists, print_class);
    print_lone(&lists);
}

#define ANY ANY_NUMBER

const struct verb mcq_verbs[] = {
    {"open", 2, {ANY, ANY}, NULL, NULL, run_open},
    {"front", 1, {ANY}, mcq_front, print_first, NULL},
    {"back", 1, {ANY}, mcq_back, print_first, NULL},
    {"empty", 1, {ANY}, mcq_is_empty, print_flag, NULL},
    {"isfront", 1, {ANY}, mcq_is_front, print_first, NULL},
    {"isback", 1, {ANY}, mcq_is_back, print_first, NULL},
    {"remove", 1, {ANY}, mcq_remove, print_done, NULL},
    {"mf", 2, {ANY, ANY}, mcq_move_front, print_done, NULL},
    {"mb", 2, {ANY, ANY}, mcq_move_back, print_done, NULL},
    {"D", 0, {0}, NULL, NULL, run_read_back},
    {NULL, 0, {0}, NULL, NULL, NULL},
};
