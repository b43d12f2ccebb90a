/* Damaged input for message and response transmission. */
#include <string.h>

#include "fuzz_tree.h"
#include "model_tx.h"
#include "random.h"
#include "random_tx.h"
#include "state_tx.h"

enum { MOST_SUBJECT = GOMXELI_SUBJECT_ID_MAX, TREE_AT = 0, AFTER_TREE = TREE_LENGTH, NO_TREE = 0 };

/* ------------------------------------------------------------------------ */
/* Numbers                                                                  */
/* ------------------------------------------------------------------------ */

static const uint8_t *queue_in(const struct bytes *state)
{
    return tx_queue_in(state->byte, state->len);
}

static void draw_entry(const struct bytes *state, uint32_t *n)
{
    n[0] = random_entry(queue_in(state));
}

static void draw_response(const struct bytes *state, uint32_t *n)
{
    n[0] = one_in(2) ? random_entry(queue_in(state)) : below(REGISTRY_ENTRIES);
    n[1] = random_set();
}

static void draw_message(const struct bytes *state, uint32_t *n)
{
    draw_registering(state, MOST_SUBJECT, n);
    if (one_in(2))
        n[1] = below(MOST_SUBJECT + 1);
    n[2] = random_set();
}

static void draw_update(const struct bytes *state, uint32_t *n)
{
    n[0] = random_entry(queue_in(state));
    n[1] = random_set();
}

static void draw_pick(const struct bytes *state, uint32_t *n)
{
    (void)state;
    n[0] = random_mask();
    n[1] = random_mtu();
}

/* Often the entry is still ready at the frame's priority alone. */
static void draw_settlement(const struct bytes *state, uint32_t *n)
{
    const uint8_t *queue = queue_in(state);
    n[0] = random_frame();
    n[2] = random_priority(queue);
    n[1] = n[2] < PRIORITIES && one_in(2) ? 1u << n[2] : random_set();
    n[3] = random_length(queue);
    n[4] = random_last();
}

/* ------------------------------------------------------------------------ */
/* States                                                                   */
/* ------------------------------------------------------------------------ */

static gomxeli_answer open_plain(struct bytes *state, const struct model *model, size_t len)
{
    if (state->len != len)
        return refusal(GOMXELI_NOT_WHOLE);
    memset(state->byte, 0, len);
    transmission_clear(model->meaning);
    model->lay(model->meaning, state->byte);
    return done();
}

/* Some pick that can be open, mostly. */
static void draw_open_pick(struct tx_queue *queue)
{
    if (one_in(3) || picked_class(queue, UINT8_MAX) == NO_CLASS)
        return;
    queue->mask = random_mask();
    if (picked_class(queue, queue->mask) == NO_CLASS)
        queue->mask = UINT8_MAX;
    queue->mtu = one_in(2) ? 8 : 64;
}

static uint8_t draw_started(uint8_t common)
{
    if (one_in(3))
        return common;
    return one_in(2) ? 0 : (uint8_t)random_bits();
}

/* Any entries with any sets, in any order; often many have the same readiness. */
static void draw_transmission(struct transmission *transmission)
{
    struct tx_queue *queue = &transmission->queue;
    uint8_t order[REGISTRY_ENTRIES];
    uint8_t common = random_set();
    unsigned others = 1 + below(4);
    transmission_clear(transmission);
    draw_tree(&transmission->subjects, MOST_SUBJECT, false);
    random_order(order, REGISTRY_ENTRIES);
    for (unsigned j = 0; j < REGISTRY_ENTRIES; j++)
        if (tree_has_entry(&transmission->subjects, order[j]))
            tx_queue_add(queue, order[j], one_in(others) ? random_set() : common,
                         draw_started(common));
    queue->wake_mask = random_mask();
    draw_open_pick(queue);
}

/* ------------------------------------------------------------------------ */
/* Near misses: one thing of a whole state changed                          */
/* ------------------------------------------------------------------------ */

/* The meaning that was laid out, which is one for both kinds. */
static struct transmission *drawn(void)
{
    return txm_model.meaning;
}

static void spoil_ends(struct bytes *state, size_t queue_at)
{
    const uint16_t places[] = {(uint16_t)queue_at, (uint16_t)(queue_at + 1),
                               (uint16_t)(queue_at + PICK_MASK_AT),
                               (uint16_t)(queue_at + PICK_MTU_AT)};
    static const uint8_t mtus[] = {0, 7, 8, 9, 63, 64, 65};
    if (one_in(2))
        spoil_byte(state, places, sizeof places / sizeof places[0]);
    else
        state->byte[places[3]] = mtus[below(sizeof mtus)];
}

/* A set or the flag of an entry, mostly of one that is registered. */
static void spoil_entry(struct bytes *state, size_t queue_at)
{
    static const uint16_t parts[] = {READINESS_AT, STARTED_AT, REGISTERED_AT};
    uint32_t entry = random_entry(state->byte + queue_at) % REGISTRY_ENTRIES;
    state->byte[queue_at + parts[below(3)] + entry] = random_set();
}

static void spoil_queues(struct bytes *state, size_t queue_at)
{
    uint32_t entry = random_entry(state->byte + queue_at) % REGISTRY_ENTRIES;
    spoil_lists(&drawn()->queue.queues, entry, state->byte + queue_at);
}

static void spoil_some_links(struct bytes *state, size_t queue_at)
{
    spoil_links(state->byte + queue_at, TX_CLASSES + REGISTRY_ENTRIES);
}

/* A pair more, of an entry that has one or of another, or a pair less. */
static void spoil_count(struct tree *subjects, struct bytes *state)
{
    unsigned subject = below(MOST_SUBJECT + 1);
    if (one_in(2) && subjects->count > 0)
        tree_remove(subjects, below(subjects->count));
    else if (subjects->count < REGISTRY_ENTRIES && !tree_has_subject(subjects, subject))
        tree_insert(subjects, draw_entry_of(state, TREE_AT) % REGISTRY_ENTRIES, subject);
    tree_lay(subjects, state->byte + TREE_AT);
}

/* The tree, or where there is none the entries again. */
static void spoil_pairs(struct bytes *state, size_t queue_at)
{
    static const uint16_t places[] = {TREE_AT};
    if (queue_at == NO_TREE)
        spoil_entry(state, queue_at);
    else if (one_in(2))
        spoil_tree(state, places, 1, MOST_SUBJECT);
    else
        spoil_count(&drawn()->subjects, state);
}

static void spoil_all(struct bytes *state, size_t queue_at)
{
    random_bytes(state->byte, state->len);
    state->byte[TREE_AT] = (uint8_t)below(3);
    if (!one_in(4))
        lists_lay(&drawn()->queue.queues, state->byte + queue_at);
}

static void spoil(struct bytes *state, size_t queue_at)
{
    static void (*const ways[])(struct bytes *, size_t) = {
        spoil_ends, spoil_entry, spoil_queues, spoil_some_links, spoil_pairs, spoil_all,
    };
    ways[below(sizeof ways / sizeof ways[0])](state, queue_at);
}

/* ------------------------------------------------------------------------ */
/* Sweeps                                                                   */
/* ------------------------------------------------------------------------ */

/* What an entry of a small state can be: not registered, or with two sets of two priorities. */
enum { SMALL_SETS = 4, SMALL_ROLES = 1 + SMALL_SETS * SMALL_SETS };

static const uint8_t small_sets[SMALL_SETS] = {0, 1, 0x80, 0x81};

static void add_small(struct transmission *transmission, unsigned entry, unsigned role,
                      bool has_subject)
{
    if (role == 0)
        return;
    if (has_subject)
        tree_insert(&transmission->subjects, entry, entry);
    tx_queue_add(&transmission->queue, entry, small_sets[(role - 1) % SMALL_SETS],
                 small_sets[(role - 1) / SMALL_SETS]);
}

/* All states of two entries, with picks of each of these masks, whole or not. */
static void sweep_small(struct kind *kind, bool has_subjects)
{
    static struct transmission small;
    enum { ENTRIES = 2, MTUS = 3 };
    static const uint8_t mtus[MTUS] = {0, 8, 64};
    for (uint32_t at = 0; at < SMALL_ROLES * SMALL_ROLES * SMALL_SETS * MTUS; at++) {
        uint32_t rest = at;
        uint8_t order[ENTRIES];
        random_order(order, ENTRIES);
        transmission_clear(&small);
        for (unsigned i = 0; i < ENTRIES; i++)
            add_small(&small, order[i], digit(&rest, SMALL_ROLES), has_subjects);
        small.queue.mask = small_sets[digit(&rest, SMALL_SETS)];
        small.queue.mtu = mtus[rest];
        small.queue.wake_mask = random_mask();
        sweep_laid(kind, &small);
    }
}

/* ------------------------------------------------------------------------ */
/* The kinds                                                                */
/* ------------------------------------------------------------------------ */

#define FUNCTIONS(kind, len, queue_at) \
    static size_t kind##_length(const uint32_t *n) \
    { \
        (void)n; \
        return len; \
    } \
    static gomxeli_answer kind##_open_plain(struct bytes *state, const uint32_t *n) \
    { \
        (void)n; \
        return open_plain(state, &kind##_model, len); \
    } \
    static void kind##_draw_meaning(const uint32_t *n, void *meaning) \
    { \
        struct transmission *transmission = meaning; \
        (void)n; \
        draw_transmission(transmission); \
        if ((queue_at) == NO_TREE) \
            transmission->subjects.count = 0; \
    } \
    static void kind##_draw_bytes(struct bytes *state) \
    { \
        draw_whole(&kind_##kind, NULL, state); \
        spoil(state, queue_at); \
    } \
    static void kind##_sweep(void) \
    { \
        sweep_bytes(&kind_##kind); \
        sweep_small(&kind_##kind, (queue_at) != NO_TREE); \
    }

FUNCTIONS(txm, 1062, AFTER_TREE)
FUNCTIONS(txr, 677, NO_TREE)

#define CALL(kind, name, outcomes, model, draw) \
    {{#kind "_" #name, (outcomes) | REFUSED(GOMXELI_NOT_WHOLE), {0}}, kind##_##name, model, draw}

/* The calls but for registering, which comes after opening. */
#define CALLS(kind) \
    CALL(kind, unregister, \
         PLAIN | REFUSED(GOMXELI_ENTRY_RANGE) | REFUSED(GOMXELI_PICK_OPEN) | \
             REFUSED(GOMXELI_NOT_REGISTERED), \
         model_tx_unregister, draw_entry), \
    CALL(kind, update, \
         PLAIN | SOME | REFUSED(GOMXELI_ENTRY_RANGE) | REFUSED(GOMXELI_PICK_OPEN) | \
             REFUSED(GOMXELI_NOT_REGISTERED), \
         model_tx_update, draw_update), \
    CALL(kind, pick, PLAIN | SOME | REFUSED(GOMXELI_RANGE) | REFUSED(GOMXELI_PICK_OPEN), \
         model_tx_pick, draw_pick), \
    CALL(kind, settle, \
         PLAIN | SOME | REFUSED(GOMXELI_RANGE) | REFUSED(GOMXELI_NO_PICK) | \
             REFUSED(GOMXELI_BAD_FRAME), \
         model_tx_settle, draw_settlement)

static struct call txm_calls[] = {
    CALL(txm, open, PLAIN, NULL, draw_no_numbers),
    CALL(txm, register,
         PLAIN | SOME | REFUSED(GOMXELI_ENTRY_RANGE) | REFUSED(GOMXELI_RANGE) |
             REFUSED(GOMXELI_PICK_OPEN) | REFUSED(GOMXELI_REGISTERED) | REFUSED(GOMXELI_OCCUPIED),
         model_txm_register, draw_message),
    CALLS(txm),
};

static struct call txr_calls[] = {
    CALL(txr, open, PLAIN, NULL, draw_no_numbers),
    CALL(txr, register,
         PLAIN | SOME | REFUSED(GOMXELI_ENTRY_RANGE) | REFUSED(GOMXELI_PICK_OPEN) |
             REFUSED(GOMXELI_REGISTERED),
         model_txr_register, draw_response),
    CALLS(txr),
};

#define A_KIND(kind, met, met_count) \
    { \
        .name = #kind, .calls = kind##_calls, \
        .call_count = sizeof kind##_calls / sizeof kind##_calls[0], .draw_sizes = draw_no_sizes, \
        .length = kind##_length, .open = kind##_open_plain, .refuse = refuse_state, \
        .model = &kind##_model, .draw_meaning = kind##_draw_meaning, \
        .draw_bytes = kind##_draw_bytes, .sweep = kind##_sweep, .branches = met, \
        .branch_count = met_count, .every = 3, \
    }

struct kind kind_txm = A_KIND(txm, NULL, 0);

/* The branches of both are counted together. */
struct kind kind_txr = A_KIND(txr, tx_branches, TX_BRANCHES);
