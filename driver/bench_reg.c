/* Regular message reception. */
#include "bench_tree.h"
#include "random.h"
#include "state_reg.h"

/* ------------------------------------------------------------------------ */
/* Shapes that calls lead to                                                */
/* ------------------------------------------------------------------------ */

enum { SLOTS = 1000 };

static void enter(struct script *script, unsigned i, unsigned subject)
{
    STEP(script, reg_register, nth_entry(i), subject);
}

static void poll(struct script *script, unsigned times)
{
    for (unsigned i = 0; i < times; i++)
        STEP(script, reg_poll_pop, 0);
}

static void all_active(unsigned count, struct script *script)
{
    for (unsigned i = 0; i < count; i++)
        enter(script, i, nth_subject(i));
    poll(script, count);
}

/* The others join the first at once. */
static void one_subject(unsigned count, struct script *script)
{
    for (unsigned i = 0; i < count; i++) {
        enter(script, i, FIRST_SUBJECT);
        poll(script, i == 0);
    }
}

static void all_waiting(unsigned count, struct script *script)
{
    for (unsigned i = 0; i < count; i++)
        enter(script, i, nth_subject(i));
}

/* Half of them stay and get marks: the others were active below each, and are gone. */
static void mark_half(unsigned half, struct script *script)
{
    for (unsigned i = 0; i < half; i++) {
        enter(script, i, nth_subject(i));
        enter(script, half + i, nth_subject(i) - BELOW);
    }
    poll(script, 2 * half);
    for (unsigned i = 0; i < half; i++)
        STEP(script, reg_unregister, nth_entry(half + i));
}

/* As many marks as calls lead to: those that went come back, on subjects that are active. */
static void half_marked(unsigned count, struct script *script)
{
    unsigned half = count / 2;
    mark_half(half, script);
    for (unsigned i = half; half > 0 && i < count; i++)
        enter(script, i, nth_subject(i % half));
}

/* They come back and wait, on subjects of their own. */
static void marked_and_waiting(unsigned count, struct script *script)
{
    unsigned half = count / 2;
    mark_half(half, script);
    for (unsigned i = half; i < count; i++)
        enter(script, i, nth_subject(i));
}

/* The last-gap flag is set, and the entry that was last is on another's subject. */
static void last_gap(unsigned count, struct script *script)
{
    all_active(count, script);
    if (count < 2)
        return;
    STEP(script, reg_unregister, nth_entry(count - 1));
    enter(script, count - 1, nth_subject(0));
}

/*
 * The first so many are active, each on its own subject; the others wait on subjects of
 * these. A poll makes all of them active, by as many inner steps, and finds nothing.
 */
static void wait_behind(unsigned active, unsigned count, unsigned (*which)(unsigned, unsigned),
                        struct script *script)
{
    for (unsigned i = 0; i < active; i++)
        enter(script, i, nth_subject(i));
    for (unsigned i = 0; active > 0 && i < count - active; i++)
        enter(script, active + i, nth_subject(which(i, active)));
    poll(script, active);
}

static unsigned lowest(unsigned i, unsigned active)
{
    (void)i;
    (void)active;
    return 0;
}

static unsigned one_each_last_first(unsigned i, unsigned active)
{
    return active - 1 - i % active;
}

/* As many on each as an eighth of the entries leaves. */
static unsigned seven_each_last_first(unsigned i, unsigned active)
{
    return active - 1 - i / 7 % active;
}

static unsigned any(unsigned i, unsigned active)
{
    (void)i;
    return below(active);
}

static void waiting_on_one(unsigned count, struct script *script)
{
    wait_behind(count > 0, count, lowest, script);
}

static void waiting_on_lowest(unsigned count, struct script *script)
{
    wait_behind(count / 2, count, lowest, script);
}

static void waiting_on_half(unsigned count, struct script *script)
{
    wait_behind(count / 2, count, one_each_last_first, script);
}

static void waiting_on_eighth(unsigned count, struct script *script)
{
    wait_behind(count / 8, count, seven_each_last_first, script);
}

static void waiting_drawn(unsigned count, struct script *script)
{
    wait_behind(count / 8, count, any, script);
}

/* Of the subjects that are taken, a quarter is shared. */
static void enter_somewhere(struct script *script, unsigned i, unsigned count)
{
    enter(script, i, nth_subject(below(2 * count)));
    poll(script, one_in(2));
}

/* All come in some order, and some go and come again. */
static void drawn(unsigned count, struct script *script)
{
    uint8_t order[REGISTRY_ENTRIES];
    random_order(order, count);
    for (unsigned i = 0; i < count; i++)
        enter_somewhere(script, order[i], count);
    for (unsigned i = 0; i < count / 2; i++) {
        STEP(script, reg_unregister, nth_entry(order[i]));
        if (one_in(2))
            enter_somewhere(script, order[i], count);
        else
            enter(script, order[i], nth_subject(below(2 * count)));
    }
}

/* ------------------------------------------------------------------------ */
/* Whole states that no calls lead to                                       */
/* ------------------------------------------------------------------------ */

static struct registry laid;

static void activate(unsigned i, unsigned subject)
{
    tree_insert(&laid.active, nth_entry(i), subject);
}

/* A poll loses its marks before it activates, so that at most half of the entries have one. */
static void all_marked(unsigned count, struct state *state)
{
    registry_clear(&laid, SLOTS);
    for (unsigned i = 0; i < count; i++) {
        activate(i, nth_subject(i));
        list_push_back(&laid.queues.list[CLEAN_UP_CLASS], nth_entry(i));
    }
    registry_lay(&laid, state->byte);
}

/*
 * The first so many are active. The others wait on the lowest subject, and stand in the
 * queue in the reverse of their order in the tree.
 */
static void ties_in_reverse(unsigned active, unsigned count, struct state *state)
{
    registry_clear(&laid, SLOTS);
    for (unsigned i = 0; i < active; i++)
        activate(i, nth_subject(i));
    for (unsigned i = active; i < count; i++) {
        tree_insert(&laid.inactive, nth_entry(i), nth_subject(0));
        list_push_front(&laid.queues.list[ACTIVATION_CLASS], nth_entry(i));
    }
    registry_lay(&laid, state->byte);
}

static void reverse_on_one(unsigned count, struct state *state)
{
    ties_in_reverse(count > 0, count, state);
}

static void reverse_on_lowest(unsigned count, struct state *state)
{
    ties_in_reverse(count / 2, count, state);
}

static const struct shape shapes[] = {
    {.name = "all active", .build = all_active},
    {.name = "one subject", .build = one_subject},
    {.name = "all waiting", .build = all_waiting},
    {.name = "half marked", .build = half_marked},
    {.name = "marked and waiting", .build = marked_and_waiting},
    {.name = "last gap", .build = last_gap},
    {.name = "waiting on one", .build = waiting_on_one},
    {.name = "waiting on the lowest", .build = waiting_on_lowest},
    {.name = "waiting on a half", .build = waiting_on_half},
    {.name = "waiting on an eighth", .build = waiting_on_eighth},
    {.name = "waiting on an eighth, drawn", .build = waiting_drawn, .is_drawn = true},
    DRAWN(drawn),
    {.name = "all marked", .lay = all_marked},
    {.name = "waiting on one, in reverse", .lay = reverse_on_one},
    {.name = "waiting on the lowest, in reverse", .lay = reverse_on_lowest},
    {.name = NULL},
};

/* ------------------------------------------------------------------------ */
/* What calls aim at                                                        */
/* ------------------------------------------------------------------------ */

static const struct registry *registry_of(const struct state *state)
{
    static struct registry registry;
    registry_read(state->byte, &registry);
    return &registry;
}

/* The active entries, or the others where none is. */
static const struct tree *tree_of(const struct registry *registry)
{
    return registry->active.count > 0 ? &registry->active : &registry->inactive;
}

static void new_entry(const struct state *state, enum place place, uint32_t *n)
{
    const struct registry *registry = registry_of(state);
    n[0] = nth_entry(registry->active.count + registry->inactive.count);
    n[1] = new_subject(tree_of(registry), place, GOMXELI_SUBJECT_ID_MAX);
}

static const char *const entry_places[PLACES] = {"first", "middle", "last", "waiting"};

/* The last place is in the middle of those that wait, if any do. */
static void entry_there(const struct state *state, enum place place, uint32_t *n)
{
    const struct registry *registry = registry_of(state);
    bool waits = place == OTHER && registry->inactive.count > 0;
    n[0] = endpoint_at(waits ? &registry->inactive : tree_of(registry), place).entry;
}

static void subject_there(const struct state *state, enum place place, uint32_t *n)
{
    n[0] = sought_subject(tree_of(registry_of(state)), place, GOMXELI_SUBJECT_ID_MAX);
}

/* The walk points at the place, among the active entries. */
static void walk_there(const struct state *state, enum place place, struct script *script)
{
    const struct tree *active = &registry_of(state)->active;
    if (active->count == 0)
        return;
    STEP(script, reg_hub_push_start, endpoint_at(active, place).subject);
    for (unsigned i = walk_steps(active, place); i > 0; i--)
        STEP(script, reg_hub_push_next, 0);
}

/* ------------------------------------------------------------------------ */
/* The kind                                                                 */
/* ------------------------------------------------------------------------ */

TEST_BY(reg, reg_unregister, UINT32_MAX)

static const struct call calls[] = {
    {TEST_ALONE(reg)},
    {CALLED(reg_open)},
    {CALLED(reg_register), new_subject_places, new_entry, .needs_room = true, .wakes = true},
    {CALLED(reg_unregister), entry_places, entry_there, walk_there, .wakes = true},
    {CALLED(reg_poll_pop)},
    {CALLED(reg_hub_push_start), sought_subject_places, subject_there},
    {CALLED(reg_hub_push_next), three_places, .prepare = walk_there},
    {.name = NULL},
};

const struct kind reg_kind = {
    .name = "reg",
    .title = "regular message reception",
    .len = GOMXELI_REG_LENGTH,
    .entries = REGISTRY_ENTRIES,
    .open = reg_open,
    .opening = {SLOTS},
    .counts = registry_counts,
    .shapes = shapes,
    .calls = calls,
};
