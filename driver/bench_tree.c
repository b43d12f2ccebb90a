/* Loop-back message reception and requests. */
#include "bench_tree.h"

#include "random.h"
#include "state_lb.h"

/* ------------------------------------------------------------------------ */
/* Trees                                                                    */
/* ------------------------------------------------------------------------ */

struct endpoint endpoint_at(const struct tree *tree, enum place place)
{
    const struct endpoint none = {0, 0};
    return tree->count > 0 ? tree->at[index_of(place, tree->count)] : none;
}

const char *const new_subject_places[PLACES] = {"first", "middle", "last", "taken"};

unsigned new_subject(const struct tree *tree, enum place place, unsigned most)
{
    unsigned subject = endpoint_at(tree, place).subject;
    switch (place) {
    case FIRST:
        return 0;
    case LAST:
        return most;
    case OTHER:
        return subject;
    default:
        return subject + 1;
    }
}

const char *const sought_subject_places[PLACES] = {"first", "middle", "last", "not there"};

unsigned sought_subject(const struct tree *tree, enum place place, unsigned most)
{
    return place == OTHER ? most : endpoint_at(tree, place).subject;
}

unsigned walk_steps(const struct tree *tree, enum place place)
{
    return index_of(place, tree->count) - tree_first_on(tree, endpoint_at(tree, place).subject);
}

/* ------------------------------------------------------------------------ */
/* What calls aim at                                                        */
/* ------------------------------------------------------------------------ */

/* The tree comes first in both kinds' bytes. */
static const struct tree *tree_of(const struct state *state)
{
    static struct tree tree;
    tree_read(state->byte, &tree);
    return &tree;
}

static unsigned most_of(const struct state *state)
{
    return state->len == GOMXELI_REQ_LENGTH ? GOMXELI_SERVICE_ID_MAX : GOMXELI_SUBJECT_ID_MAX;
}

static void new_entry(const struct state *state, enum place place, uint32_t *n)
{
    const struct tree *tree = tree_of(state);
    n[0] = nth_entry(tree->count);
    n[1] = new_subject(tree, place, most_of(state));
}

static void entry_there(const struct state *state, enum place place, uint32_t *n)
{
    n[0] = endpoint_at(tree_of(state), place).entry;
}

static void subject_there(const struct state *state, enum place place, uint32_t *n)
{
    n[0] = sought_subject(tree_of(state), place, most_of(state));
}

/* The walk points at the place. */
static void walk_there(const struct state *state, enum place place, struct script *script)
{
    const struct tree *tree = tree_of(state);
    if (tree->count == 0)
        return;
    STEP(script, lb_hub_push_start, endpoint_at(tree, place).subject);
    for (unsigned i = walk_steps(tree, place); i > 0; i--)
        STEP(script, lb_hub_push_next, 0);
}

/* ------------------------------------------------------------------------ */
/* Shapes                                                                   */
/* ------------------------------------------------------------------------ */

static void own_subjects(unsigned count, struct script *script)
{
    for (unsigned i = 0; i < count; i++)
        STEP(script, lb_register, nth_entry(i), nth_subject(i));
}

static void one_subject(unsigned count, struct script *script)
{
    for (unsigned i = 0; i < count; i++)
        STEP(script, lb_register, nth_entry(i), FIRST_SUBJECT);
}

static void own_services(unsigned count, struct script *script)
{
    for (unsigned i = 0; i < count; i++)
        STEP(script, req_register, nth_entry(i), FIRST_SUBJECT + 3 * i);
}

static void drawn_subjects(unsigned count, struct script *script)
{
    uint8_t order[REGISTRY_ENTRIES];
    random_order(order, count);
    for (unsigned i = 0; i < count; i++)
        STEP(script, lb_register, nth_entry(order[i]), nth_subject(below(2 * count)));
}

/* One of two in each four, so that the one behind it is free. */
static void drawn_services(unsigned count, struct script *script)
{
    uint8_t order[REGISTRY_ENTRIES];
    random_order(order, count);
    for (unsigned i = 0; i < count; i++)
        STEP(script, req_register, nth_entry(i), 4u * order[i] + below(2));
}

static const struct shape lb_shapes[] = {
    {.name = "own subjects", .build = own_subjects},
    {.name = "one subject", .build = one_subject},
    DRAWN(drawn_subjects),
    {.name = NULL},
};

static const struct shape req_shapes[] = {
    {.name = "own services", .build = own_services},
    DRAWN(drawn_services),
    {.name = NULL},
};

/* ------------------------------------------------------------------------ */
/* Kinds                                                                    */
/* ------------------------------------------------------------------------ */

TEST_BY(lb, lb_unregister, UINT32_MAX)
TEST_BY(req, req_unregister, UINT32_MAX)

static const struct call lb_calls[] = {
    {TEST_ALONE(lb)},
    {CALLED(lb_open)},
    {CALLED(lb_register), new_subject_places, new_entry, .needs_room = true},
    {CALLED(lb_unregister), three_places, entry_there, walk_there},
    {CALLED(lb_hub_push_start), sought_subject_places, subject_there},
    {CALLED(lb_hub_push_next), three_places, .prepare = walk_there},
    {.name = NULL},
};

static const struct call req_calls[] = {
    {TEST_ALONE(req)},
    {CALLED(req_open)},
    {CALLED(req_register), new_subject_places, new_entry, .needs_room = true},
    {CALLED(req_unregister), three_places, entry_there},
    {CALLED(req_poll_push), sought_subject_places, subject_there},
    {.name = NULL},
};

const struct kind lb_kind = {
    .name = "lb",
    .title = "loop-back message reception",
    .len = GOMXELI_LB_LENGTH,
    .entries = REGISTRY_ENTRIES,
    .open = lb_open,
    .counts = registry_counts,
    .shapes = lb_shapes,
    .calls = lb_calls,
};

const struct kind req_kind = {
    .name = "req",
    .title = "requests",
    .len = GOMXELI_REQ_LENGTH,
    .entries = REGISTRY_ENTRIES,
    .open = req_open,
    .counts = registry_counts,
    .shapes = req_shapes,
    .calls = req_calls,
};
