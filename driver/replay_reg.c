/* Lines of regular message reception: `reg ..`. */
#include <inttypes.h>
#include <stdio.h>

#include "replay_tree.h"
#include "state_reg.h"

static void run_open(struct state *state, const uint32_t *n)
{
    open_state(state, GOMXELI_REG_LENGTH, reg_open, n);
}

/* ------------------------------------------------------------------------ */
/* Answers                                                                  */
/* ------------------------------------------------------------------------ */

/* A poll never wakes. */
static void print_update(gomxeli_answer answer)
{
    if (print_refusal(answer))
        return;
    switch (gomxeli_what(answer)) {
    case 0:
        printf("0 nothing w0");
        break;
    case 1:
        printf("0 add %u w0", (unsigned)gomxeli_first(answer));
        break;
    default:
        printf("0 remove %u %" PRIu32 " w0", (unsigned)gomxeli_first(answer),
               gomxeli_second(answer));
        break;
    }
}

static void run_walk(struct state *state, const uint32_t *n)
{
    print_walk(state, n, reg_hub_push_start, reg_hub_push_next);
}

/* ------------------------------------------------------------------------ */
/* The state read back                                                      */
/* ------------------------------------------------------------------------ */

static void print_active(const struct registry *registry)
{
    const struct tree *tree = &registry->active;
    printf(" act=%s", tree->count == 0 ? "-" : "");
    for (unsigned i = 0; i < tree->count; i++) {
        const struct endpoint *endpoint = &tree->at[i];
        printf("%s%u:%u:%c%c", i == 0 ? "" : ",", (unsigned)endpoint->entry,
               (unsigned)endpoint->subject, tree_is_head(tree, i) ? 'H' : '.',
               registry_is_marked(registry, endpoint->entry) ? 'M' : '.');
    }
}

static void print_registry(const struct registry *registry)
{
    printf("slots=%u last=%u ", registry->slots, (unsigned)registry->last_gap);
    print_walk_entry(registry->walk);
    print_active(registry);
    print_pairs(" inact", &registry->inactive);
    print_entries("aq", &registry->queues.list[ACTIVATION_CLASS]);
    print_entries("cq", &registry->queues.list[CLEAN_UP_CLASS]);
}

static void run_read_back(struct state *state, const uint32_t *n)
{
    static struct registry registry;
    (void)n;
    if (print_not_whole(state, reg_unregister))
        return;
    registry_read(state->bytes, &registry);
    print_registry(&registry);
}

#define ANY ANY_NUMBER

const struct verb reg_verbs[] = {
    {"open", 1, {ANY}, NULL, NULL, run_open},
    {"R", 2, {ANY, ANY}, reg_register, print_wake, NULL},
    {"U", 1, {ANY}, reg_unregister, print_wake, NULL},
    {"P", 0, {0}, reg_poll_pop, print_update, NULL},
    {"S", 1, {ANY}, reg_hub_push_start, print_flag, NULL},
    {"N", 0, {0}, reg_hub_push_next, print_named, NULL},
    {"F", 1, {ANY}, NULL, NULL, run_walk},
    {"D", 0, {0}, NULL, NULL, run_read_back},
    {NULL, 0, {0}, NULL, NULL, NULL},
};
