/* Message and response transmission. */
#include "bench_tree.h"
#include "random.h"
#include "state_tx.h"

enum { MTU = 8, LAST_FRAME = 64, OTHER_FRAME = 0, ALL_PRIORITIES = 255 };

/* ------------------------------------------------------------------------ */
/* Steps of either kind                                                     */
/* ------------------------------------------------------------------------ */

static bool is_messages(size_t len)
{
    return len == GOMXELI_TXM_LENGTH;
}

static void enter(struct script *script, unsigned i, unsigned readiness)
{
    if (is_messages(script->kind->len))
        STEP(script, txm_register, nth_entry(i), nth_subject(i), readiness);
    else
        STEP(script, txr_register, nth_entry(i), readiness);
}

static void update(struct script *script, unsigned i, unsigned readiness)
{
    if (is_messages(script->kind->len))
        STEP(script, txm_update, nth_entry(i), readiness);
    else
        STEP(script, txr_update, nth_entry(i), readiness);
}

static void pick(struct script *script, unsigned mask)
{
    if (is_messages(script->kind->len))
        STEP(script, txm_pick, mask, MTU);
    else
        STEP(script, txr_pick, mask, MTU);
}

/* A frame that is not the last one; nothing more is ready. */
static void settle_other(struct script *script, unsigned priority)
{
    if (is_messages(script->kind->len))
        STEP(script, txm_settle, 1, 0, priority, MTU, OTHER_FRAME);
    else
        STEP(script, txr_settle, 1, 0, priority, MTU, OTHER_FRAME);
}

/* ------------------------------------------------------------------------ */
/* Shapes                                                                   */
/* ------------------------------------------------------------------------ */

static unsigned priority_by_turns(unsigned i)
{
    return i % PRIORITIES;
}

static bool is_started_by_turns(unsigned i)
{
    return i / PRIORITIES % 2 == 1;
}

/* It is registered with a transfer started, and has nothing ready. */
static void start(struct script *script, unsigned i, unsigned priority)
{
    enter(script, i, 1u << priority);
    pick(script, 1u << priority);
    settle_other(script, priority);
}

static void all_queues(unsigned count, struct script *script)
{
    for (unsigned i = 0; i < count; i++)
        if (is_started_by_turns(i))
            start(script, i, priority_by_turns(i));
    for (unsigned i = 0; i < count; i++) {
        if (is_started_by_turns(i))
            update(script, i, 1u << priority_by_turns(i));
        else
            enter(script, i, 1u << priority_by_turns(i));
    }
}

static void enter_all(unsigned count, unsigned readiness, struct script *script)
{
    for (unsigned i = 0; i < count; i++)
        enter(script, i, readiness);
}

static void last_queue(unsigned count, struct script *script)
{
    enter_all(count, 1u << (PRIORITIES - 1), script);
}

static void all_priorities(unsigned count, struct script *script)
{
    enter_all(count, ALL_PRIORITIES, script);
}

static void none_ready(unsigned count, struct script *script)
{
    enter_all(count, 0, script);
}

/* Half of them have a transfer started, all some readiness. */
static void drawn(unsigned count, struct script *script)
{
    uint8_t order[REGISTRY_ENTRIES];
    unsigned half = count / 2;
    random_order(order, count);
    for (unsigned i = 0; i < half; i++)
        start(script, order[i], below(PRIORITIES));
    for (unsigned i = 0; i < count; i++) {
        if (i < half)
            update(script, order[i], below(ALL_PRIORITIES + 1));
        else
            enter(script, order[i], below(ALL_PRIORITIES + 1));
    }
}

static const struct shape shapes[] = {
    {.name = "all queues by turns", .build = all_queues},
    {.name = "all in the last queue", .build = last_queue},
    {.name = "all ready at all priorities", .build = all_priorities},
    {.name = "none ready", .build = none_ready},
    DRAWN(drawn),
    {.name = NULL},
};

/* ------------------------------------------------------------------------ */
/* What calls aim at                                                        */
/* ------------------------------------------------------------------------ */

static const struct transmission *transmission_of(const struct state *state)
{
    static struct transmission transmission;
    if (is_messages(state->len))
        txm_read(state->byte, &transmission);
    else
        txr_read(state->byte, &transmission);
    return &transmission;
}

static unsigned registered(const struct transmission *transmission)
{
    unsigned count = 0;
    for (unsigned e = 0; e < REGISTRY_ENTRIES; e++)
        count += transmission->queue.entry[e].registered;
    return count;
}

static unsigned entry_at(const struct transmission *transmission, enum place place)
{
    unsigned count = registered(transmission);
    return count > 0 ? nth_entry(index_of(place, count)) : 0;
}

static void new_entry(const struct state *state, enum place place, uint32_t *n)
{
    const struct transmission *transmission = transmission_of(state);
    n[0] = nth_entry(registered(transmission));
    n[1] = new_subject(&transmission->subjects, place, GOMXELI_SUBJECT_ID_MAX);
    n[is_messages(state->len) ? 2 : 1] = 1;
}

static void entry_there(const struct state *state, enum place place, uint32_t *n)
{
    n[0] = entry_at(transmission_of(state), place);
}

static const char *const update_places[PLACES] = {"first", "middle", "last", "the same queue"};

/* To another queue, or to its own. */
static void new_readiness(const struct state *state, enum place place, uint32_t *n)
{
    const struct transmission *transmission = transmission_of(state);
    unsigned entry = entry_at(transmission, place);
    unsigned readiness = transmission->queue.entry[entry].readiness;
    n[0] = entry;
    n[1] = place == OTHER ? readiness : set_has(readiness, 0) ? 2 : 1;
}

static bool is_filled(const struct transmission *transmission, unsigned priority)
{
    return picked_class(&transmission->queue, 1u << priority) != NO_CLASS;
}

/* The priorities of which nothing is ready. */
static unsigned empty_priorities(const struct transmission *transmission)
{
    unsigned set = 0;
    for (unsigned p = 0; p < PRIORITIES; p++)
        set |= is_filled(transmission, p) ? 0 : 1u << p;
    return set;
}

static const char *const pick_places[PLACES] = {[MIDDLE] = "any", [OTHER] = "nothing ready"};

static void mask_and_mtu(const struct state *state, enum place place, uint32_t *n)
{
    n[0] = place == OTHER ? empty_priorities(transmission_of(state)) : ALL_PRIORITIES;
    n[1] = MTU;
}

/* With which something is picked, where anything is ready. */
static void open_pick(const struct state *state, enum place place, struct script *script)
{
    (void)place;
    if (empty_priorities(transmission_of(state)) != ALL_PRIORITIES)
        pick(script, ALL_PRIORITIES);
}

static const char *const settle_places[PLACES] = {
    [MIDDLE] = "last frame",
    [LAST] = "another frame",
    [OTHER] = "no frame",
};

/* Still ready at the same priority. */
static void outcome(const struct state *state, enum place place, uint32_t *n)
{
    const struct transmission *transmission = transmission_of(state);
    unsigned cls = picked_class(&transmission->queue, ALL_PRIORITIES);
    unsigned priority = cls == NO_CLASS ? 0 : class_priority(cls);
    n[0] = place != OTHER;
    n[1] = 1u << priority;
    n[2] = priority;
    n[3] = MTU;
    n[4] = place == LAST ? OTHER_FRAME : LAST_FRAME;
}

/* ------------------------------------------------------------------------ */
/* Kinds                                                                    */
/* ------------------------------------------------------------------------ */

enum { TEST, OPEN, REGISTER, UNREGISTER, UPDATE, PICK, SETTLE };

#define CALLS(kind, new_places) \
    static const struct call kind##_calls[] = { \
        [TEST] = {TEST_ALONE(kind)}, \
        [OPEN] = {CALLED(kind##_open)}, \
        [REGISTER] = {CALLED(kind##_register), new_places, new_entry, .needs_room = true, \
                      .wakes = true}, \
        [UNREGISTER] = {CALLED(kind##_unregister), three_places, entry_there}, \
        [UPDATE] = {CALLED(kind##_update), update_places, new_readiness, .wakes = true}, \
        [PICK] = {CALLED(kind##_pick), pick_places, mask_and_mtu, \
                  .settlement = &kind##_calls[SETTLE]}, \
        [SETTLE] = {CALLED(kind##_settle), settle_places, outcome, open_pick, .wakes = true}, \
        {.name = NULL}, \
    }

TEST_BY(txm, txm_unregister, UINT32_MAX)
TEST_BY(txr, txr_unregister, UINT32_MAX)
CALLS(txm, new_subject_places);
CALLS(txr, NULL);

const struct kind txm_kind = {
    .name = "txm",
    .title = "message transmission",
    .len = GOMXELI_TXM_LENGTH,
    .entries = REGISTRY_ENTRIES,
    .open = txm_open,
    .counts = registry_counts,
    .shapes = shapes,
    .calls = txm_calls,
};

const struct kind txr_kind = {
    .name = "txr",
    .title = "response transmission",
    .len = GOMXELI_TXR_LENGTH,
    .entries = REGISTRY_ENTRIES,
    .open = txr_open,
    .counts = registry_counts,
    .shapes = shapes,
    .calls = txr_calls,
};
