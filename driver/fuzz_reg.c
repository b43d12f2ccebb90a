/* Damaged input for regular message reception. */
#include <string.h>

#include "fuzz_tree.h"
#include "model_reg.h"
#include "random.h"
#include "state_reg.h"
#include "whole.h"

enum { MOST_SLOTS = GOMXELI_REG_SLOTS_MAX, MOST_SUBJECT = GOMXELI_SUBJECT_ID_MAX };

/* ------------------------------------------------------------------------ */
/* Slots and numbers                                                        */
/* ------------------------------------------------------------------------ */

/* Slots: none, a few, as many as there can be, or any number. */
static void draw_slots(uint32_t *n)
{
    switch (below(8)) {
    case 0:
        n[0] = 0;
        break;
    case 1:
    case 2:
    case 3:
        n[0] = 1 + below(8);
        break;
    case 4:
    case 5:
        n[0] = MOST_SLOTS;
        break;
    default:
        n[0] = below(MOST_SLOTS + 1);
        break;
    }
}

static size_t length(const uint32_t *n)
{
    (void)n;
    return GOMXELI_REG_LENGTH;
}

static void draw_open(const struct bytes *state, uint32_t *n)
{
    (void)state;
    n[0] = number_near(MOST_SLOTS + 1);
}

static size_t some_tree(void)
{
    return one_in(2) ? ACTIVE_AT : INACTIVE_AT;
}

/* An entry that the walk or the clean-up queue names, or else some tree's. */
static uint32_t draw_named(const struct bytes *state)
{
    uint8_t walk = state->byte[WALK_AT];
    uint8_t first_marked = (uint8_t)(state->byte[QUEUES_AT + 2] - REGISTRY_CLASSES);
    uint8_t named = one_in(2) ? walk : first_marked;
    return named < REGISTRY_ENTRIES ? named : some_place(state, some_tree())[0];
}

static uint32_t draw_entry(const struct bytes *state)
{
    if (state->len < GOMXELI_REG_LENGTH || one_in(4))
        return number_near(REGISTRY_ENTRIES);
    return one_in(2) ? draw_named(state) : some_place(state, some_tree())[0];
}

static uint32_t draw_subject(const struct bytes *state)
{
    return draw_subject_of(state, some_tree(), MOST_SUBJECT);
}

static void draw_registration(const struct bytes *state, uint32_t *n)
{
    n[0] = one_in(4) ? draw_entry(state) : below(REGISTRY_ENTRIES);
    n[1] = draw_subject(state);
}

static void draw_one_entry(const struct bytes *state, uint32_t *n)
{
    n[0] = draw_entry(state);
}

static void draw_one_subject(const struct bytes *state, uint32_t *n)
{
    n[0] = draw_subject(state);
}

/* ------------------------------------------------------------------------ */
/* States                                                                   */
/* ------------------------------------------------------------------------ */

static struct registry plain_registry;

static gomxeli_answer open_plain(struct bytes *state, const uint32_t *n)
{
    if (state->len != 1036)
        return refusal(GOMXELI_NOT_WHOLE);
    if (n[0] > 65535)
        return refusal(GOMXELI_RANGE);
    memset(state->byte, 0, state->len);
    registry_clear(&plain_registry, n[0]);
    registry_lay(&plain_registry, state->byte);
    return done();
}

static void read_registry(const uint8_t *state, void *meaning)
{
    registry_read(state, meaning);
}

static void lay_registry(const void *meaning, uint8_t *state)
{
    registry_lay(meaning, state);
}

/* Whether a clean-up mark may stand at the active place. */
static bool takes_mark(const struct tree *active, unsigned place)
{
    unsigned subject = active->at[place].subject;
    return subject > 0 && tree_is_head(active, place) &&
           tree_first_on(active, subject - 1) == active->count;
}

/* No marks, or some, on any heads that may have one, in the order given. */
static void draw_marks(struct registry *registry, const uint8_t *order)
{
    unsigned sparsity = 1 + below(3);
    if (one_in(2))
        return;
    for (unsigned j = 0; j < REGISTRY_ENTRIES; j++) {
        unsigned place = tree_find(&registry->active, order[j]);
        if (place < registry->active.count && takes_mark(&registry->active, place) &&
            one_in(sparsity))
            list_push_back(&registry->queues.list[CLEAN_UP_CLASS], order[j]);
    }
}

static void draw_ends(struct registry *registry)
{
    const struct tree *active = &registry->active;
    bool gap_fits = active->count == 0 || active->at[active->count - 1].subject < MOST_SUBJECT;
    registry->last_gap = gap_fits && one_in(3);
    if (active->count > 0 && one_in(2))
        registry->walk = active->at[below(active->count)].entry;
}

/* Any entries on any subjects, active or waiting, in any order. */
static void draw_meaning(const uint32_t *n, void *meaning)
{
    struct registry *registry = meaning;
    uint8_t order[REGISTRY_ENTRIES];
    unsigned count = draw_count();
    unsigned from = below(MOST_SUBJECT + 1);
    unsigned span = draw_span(count, MOST_SUBJECT);
    unsigned active_share = below(5);
    registry_clear(registry, n[0]);
    random_order(order, REGISTRY_ENTRIES);
    for (unsigned j = 0; j < count; j++) {
        unsigned subject = draw_near_subject(from, span, MOST_SUBJECT);
        if (below(4) < active_share) {
            tree_insert(&registry->active, order[j], subject);
        } else {
            tree_insert(&registry->inactive, order[j], subject);
            list_push_back(&registry->queues.list[ACTIVATION_CLASS], order[j]);
        }
    }
    draw_marks(registry, order);
    draw_ends(registry);
}

/* ------------------------------------------------------------------------ */
/* Near misses: one thing of a whole state changed                          */
/* ------------------------------------------------------------------------ */

static void spoil_some_byte(struct bytes *state)
{
    static const uint16_t places[] = {ACTIVE_AT,     INACTIVE_AT, QUEUES_AT,
                                      QUEUES_AT + 1, LAST_GAP_AT, WALK_AT};
    spoil_byte(state, places, sizeof places / sizeof places[0]);
}

static void spoil_some_place(struct bytes *state)
{
    spoil_place(state, some_tree(), some_tree(), MOST_SUBJECT);
}

static void swap_some_places(struct bytes *state)
{
    swap_places(state, some_tree(), some_tree());
}

static void spoil_queues(struct bytes *state)
{
    unsigned entry = one_in(2) ? some_place(state, some_tree())[0] : below(REGISTRY_ENTRIES);
    spoil_lists(&plain_registry.queues, entry, state->byte + QUEUES_AT);
}

static void spoil_some_links(struct bytes *state)
{
    spoil_links(state->byte + QUEUES_AT, REGISTRY_CLASSES + REGISTRY_ENTRIES);
}

static void spoil_all(struct bytes *state)
{
    random_bytes(state->byte, state->len);
    state->byte[ACTIVE_AT] = (uint8_t)below(3);
    state->byte[INACTIVE_AT] = (uint8_t)below(3);
    if (!one_in(4))
        lists_lay(&plain_registry.queues, state->byte + QUEUES_AT);
}

static void draw_bytes(struct bytes *state)
{
    static void (*const ways[])(struct bytes *) = {
        spoil_some_byte, spoil_some_place, swap_some_places,
        spoil_queues,    spoil_some_links, spoil_all,
    };
    uint32_t n[MOST_NUMBERS] = {0};
    draw_slots(n);
    draw_whole(&kind_reg, n, state);
    ways[below(sizeof ways / sizeof ways[0])](state);
}

/* ------------------------------------------------------------------------ */
/* Sweeps                                                                   */
/* ------------------------------------------------------------------------ */

/* Openings with all slots and some past, some with another length. */
static void sweep_openings(void)
{
    static struct bytes state;
    for (uint32_t slots = 0; slots <= MOST_SLOTS + 100; slots++) {
        const uint32_t n[MOST_NUMBERS] = {slots, 0};
        if (!due())
            continue;
        state.len = 0;
        resize(&state, GOMXELI_REG_LENGTH - 1 + (one_in(16) ? below(3) : 1));
        try_call(&kind_reg, &kind_reg.calls[0], SWEPT, &state, n);
    }
}

/* What an entry of a small state can be: not registered; active or waiting on a small subject. */
enum { SMALL_ROLES = 1 + 2 * SMALL_SUBJECTS };

/* Puts the entry in by its role, marked if so, whether that is whole or not. */
static void add_small(struct registry *registry, unsigned entry, unsigned role, bool marked)
{
    bool active = role <= SMALL_SUBJECTS;
    if (marked)
        list_push_back(&registry->queues.list[CLEAN_UP_CLASS], entry);
    if (role == 0)
        return;
    tree_insert(active ? &registry->active : &registry->inactive, entry,
                small_subject((role - 1) % SMALL_SUBJECTS, MOST_SUBJECT));
    if (!active && !marked)
        list_push_back(&registry->queues.list[ACTIVATION_CLASS], entry);
}

/* All states of so few entries, with each set of marks, each flag and each walk. */
static void sweep_small(void)
{
    static const uint16_t slots[] = {0, 1, MOST_SLOTS};
    static const uint8_t order[][SMALL_ENTRIES] = {{0, 1, 2}, {2, 1, 0}};
    enum { STATES = SMALL_ROLES * SMALL_ROLES * SMALL_ROLES * 8 * 2 * 4 };
    static struct bytes state;
    for (uint32_t at = 0; at < STATES; at++) {
        uint32_t rest = at;
        if (!due())
            continue;
        const uint8_t *turn = order[below(2)];
        registry_clear(&plain_registry, slots[below(3)]);
        for (unsigned i = 0; i < SMALL_ENTRIES; i++) {
            unsigned role = digit(&rest, SMALL_ROLES);
            add_small(&plain_registry, turn[i], role, digit(&rest, 2) == 1);
        }
        plain_registry.last_gap = digit(&rest, 2) == 1;
        plain_registry.walk = rest < SMALL_ENTRIES ? rest : (unsigned)NO_WALK;
        state.len = 0;
        resize(&state, GOMXELI_REG_LENGTH);
        registry_lay(&plain_registry, state.byte);
        try_drawn(&kind_reg, call_in_turn(&kind_reg, at / 3), SWEPT, &state);
    }
}

static void sweep(void)
{
    sweep_openings();
    sweep_bytes(&kind_reg);
    sweep_small();
}

/* ------------------------------------------------------------------------ */
/* The kind                                                                 */
/* ------------------------------------------------------------------------ */

#define CALL(name, outcomes, model, draw) \
    {{"reg_" #name, (outcomes) | REFUSED(GOMXELI_NOT_WHOLE), {0}}, reg_##name, model, draw}

static struct call calls[] = {
    CALL(open, PLAIN | REFUSED(GOMXELI_RANGE), NULL, draw_open),
    CALL(register,
         PLAIN | SOME | REFUSED(GOMXELI_ENTRY_RANGE) | REFUSED(GOMXELI_RANGE) |
             REFUSED(GOMXELI_REGISTERED) | REFUSED(GOMXELI_NO_SUBJECT_SLOT),
         model_reg_register, draw_registration),
    CALL(unregister,
         PLAIN | SOME | REFUSED(GOMXELI_ENTRY_RANGE) | REFUSED(GOMXELI_NOT_REGISTERED) |
             REFUSED(GOMXELI_SLOTS_FULL),
         model_reg_unregister, draw_one_entry),
    CALL(poll_pop, PLAIN | SOME | OTHER, model_reg_poll_pop, draw_no_numbers),
    CALL(hub_push_start, PLAIN | SOME | REFUSED(GOMXELI_RANGE), model_reg_hub_push_start,
         draw_one_subject),
    CALL(hub_push_next, PLAIN | SOME, model_reg_hub_push_next, draw_no_numbers),
};

static const struct model model = {whole_reg, &plain_registry, read_registry, lay_registry};

struct kind kind_reg = {
    .name = "reg",
    .calls = calls,
    .call_count = sizeof calls / sizeof calls[0],
    .draw_sizes = draw_slots,
    .length = length,
    .open = open_plain,
    .refuse = refuse_state,
    .model = &model,
    .draw_meaning = draw_meaning,
    .draw_bytes = draw_bytes,
    .sweep = sweep,
    .branches = reg_branches,
    .branch_count = REG_BRANCHES,
};
