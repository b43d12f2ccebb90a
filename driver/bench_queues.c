/* Lists, key queues, and the filter image. */
#include "bench.h"
#include "random.h"
#include "state_iq.h"
#include "state_mcq.h"

static const unsigned some_counts[] = {0, 16, 128};
static const unsigned most_lists[] = {GOMXELI_MCQ_ENTRIES_MAX};
static const unsigned most_keys[] = {GOMXELI_IQ_ENTRIES_MAX};

/* ------------------------------------------------------------------------ */
/* Lists                                                                    */
/* ------------------------------------------------------------------------ */

static unsigned scattered(unsigned i, unsigned entries)
{
    return i * 37 % entries;
}

static void by_turns(unsigned count, struct script *script)
{
    const uint32_t *sizes = script->kind->opening;
    for (unsigned i = 0; i < count; i++)
        STEP(script, mcq_move_back, i % sizes[0], scattered(i, sizes[1]));
}

static void by_turns_in_order(unsigned count, struct script *script)
{
    for (unsigned i = 0; i < count; i++)
        STEP(script, mcq_move_back, i % script->kind->opening[0], i);
}

static void one_class(unsigned count, struct script *script)
{
    for (unsigned i = 0; i < count; i++)
        STEP(script, mcq_move_back, 0, scattered(i, script->kind->opening[1]));
}

static void one_class_in_order(unsigned count, struct script *script)
{
    for (unsigned i = 0; i < count; i++)
        STEP(script, mcq_move_back, 0, i);
}

static void drawn_lists(unsigned count, struct script *script)
{
    uint8_t order[GOMXELI_MCQ_ENTRIES_MAX];
    random_order(order, script->kind->entries);
    for (unsigned i = 0; i < count; i++)
        STEP(script, mcq_move_back, below(script->kind->opening[0]), order[i]);
}

static const struct shape mcq_shapes[] = {
    {.name = "all classes by turns", .build = by_turns},
    {.name = "all classes by turns, in order", .build = by_turns_in_order},
    {.name = "one class", .build = one_class},
    {.name = "one class, in order", .build = one_class_in_order},
    DRAWN(drawn_lists),
    {.name = NULL},
};

/* Bytes 0 and 1 are the sizes. */
static unsigned class_at(const struct state *state, enum place place)
{
    return index_of(place, state->byte[0]);
}

static unsigned entry_at(const struct state *state, enum place place)
{
    return scattered(index_of(place, state->byte[1]), state->byte[1]);
}

static void class_there(const struct state *state, enum place place, uint32_t *n)
{
    n[0] = class_at(state, place);
}

static void entry_there(const struct state *state, enum place place, uint32_t *n)
{
    n[0] = entry_at(state, place);
}

static void class_and_entry(const struct state *state, enum place place, uint32_t *n)
{
    n[0] = class_at(state, place);
    n[1] = entry_at(state, place);
}

TEST_BY(mcq, mcq_front, UINT32_MAX)

static const struct call mcq_calls[] = {
    {TEST_ALONE(mcq)},
    {CALLED(mcq_open)},
    {CALLED(mcq_front), three_places, class_there},
    {CALLED(mcq_back), three_places, class_there},
    {CALLED(mcq_is_empty), three_places, class_there},
    {CALLED(mcq_is_front), three_places, entry_there},
    {CALLED(mcq_is_back), three_places, entry_there},
    {CALLED(mcq_remove), three_places, entry_there},
    {CALLED(mcq_move_front), three_places, class_and_entry},
    {CALLED(mcq_move_back), three_places, class_and_entry},
    {.name = NULL},
};

#define LISTS(classes, most, at) \
    { \
        .name = "mcq", .title = "lists of " #classes " classes and " #most " entries", \
        .len = GOMXELI_MCQ_LENGTH(classes, most), .entries = most, .open = mcq_open, \
        .opening = {classes, most}, .counts = at, .shapes = mcq_shapes, .calls = mcq_calls, \
    }

/* ------------------------------------------------------------------------ */
/* Key queues                                                               */
/* ------------------------------------------------------------------------ */

/* Keys in a scattered order; K_MAX and 1 is a power of 2. */
static uint16_t nth_key(unsigned i, unsigned k_max)
{
    return (uint16_t)(i * 61 % (k_max + 1));
}

static void insert(struct script *script, unsigned i)
{
    STEP(script, iq_insert, nth_key(i, script->kind->opening[0]), i);
}

static void none_queued(unsigned count, struct script *script)
{
    for (unsigned i = 0; i < count; i++)
        insert(script, i);
}

static void all_queued(unsigned count, struct script *script)
{
    none_queued(count, script);
    for (unsigned i = 0; i < count; i++)
        STEP(script, iq_enqueue_back, nth_key(i, script->kind->opening[0]));
}

static void queued_in_reverse(unsigned count, struct script *script)
{
    none_queued(count, script);
    for (unsigned i = 0; i < count; i++)
        STEP(script, iq_enqueue_front, nth_key(i, script->kind->opening[0]));
}

/* By a second insert. */
static void all_handed_back(unsigned count, struct script *script)
{
    all_queued(count, script);
    none_queued(count, script);
}

/* The keys come in some order, and some of them are queued in another. */
static void drawn_keys(unsigned count, struct script *script)
{
    uint8_t order[GOMXELI_IQ_ENTRIES_MAX];
    random_order(order, count);
    for (unsigned i = 0; i < count; i++)
        insert(script, order[i]);
    random_order(order, count);
    for (unsigned i = 0; i < count; i++)
        if (one_in(2))
            STEP(script, iq_enqueue_back, nth_key(order[i], script->kind->opening[0]));
}

static const struct shape iq_shapes[] = {
    {.name = "all queued", .build = all_queued},
    {.name = "none queued", .build = none_queued},
    {.name = "queued in reverse", .build = queued_in_reverse},
    DRAWN(drawn_keys),
    {.name = "all handed back", .build = all_handed_back, .panics = true},
    {.name = NULL},
};

static const struct keys *keys_of(const struct state *state)
{
    static struct keys keys;
    keys_read(state->byte, &keys);
    return &keys;
}

static unsigned keys_there(const struct keys *keys)
{
    unsigned count = 0;
    for (unsigned i = 0; i < keys->entries; i++)
        count += keys->entry[i].has_key;
    return count;
}

/* A key that is there; or, where none is, one that is not. */
static void key_there(const struct state *state, enum place place, uint32_t *n)
{
    const struct keys *keys = keys_of(state);
    unsigned count = keys_there(keys);
    n[0] = nth_key(count > 0 ? index_of(place, count) : 0, keys->k_max);
}

static void key_and_value(const struct state *state, enum place place, uint32_t *n)
{
    key_there(state, place, n);
    n[1] = 7;
}

static const char *const new_key_places[PLACES] = {[MIDDLE] = "new", [OTHER] = "taken"};

static void new_key(const struct state *state, enum place place, uint32_t *n)
{
    const struct keys *keys = keys_of(state);
    key_and_value(state, place, n);
    if (place != OTHER)
        n[0] = nth_key(keys_there(keys), keys->k_max);
}

TEST_BY(iq, iq_contains, UINT16_MAX)

static const struct call iq_calls[] = {
    {TEST_ALONE(iq)},
    {CALLED(iq_open)},
    {CALLED(iq_contains), three_places, key_there},
    {CALLED(iq_get), three_places, key_there},
    {CALLED(iq_get_mut), three_places, key_and_value},
    {CALLED(iq_insert), new_key_places, new_key, .needs_room = true},
    {CALLED(iq_remove), three_places, key_there},
    {CALLED(iq_front)},
    {CALLED(iq_back)},
    {CALLED(iq_enqueue_front), three_places, key_there},
    {CALLED(iq_enqueue_back), three_places, key_there},
    {CALLED(iq_dequeue), three_places, key_there},
    {.name = NULL},
};

#define KEYS(largest_key, most, at) \
    { \
        .name = "iq", .title = "key queues of keys to " #largest_key " and " #most " entries", \
        .len = GOMXELI_IQ_LENGTH(largest_key, most), .entries = most, .open = iq_open, \
        .opening = {largest_key, most}, .counts = at, .shapes = iq_shapes, .calls = iq_calls, \
    }

/* ------------------------------------------------------------------------ */
/* The filter image                                                         */
/* ------------------------------------------------------------------------ */

enum { SUBJECTS_APART = 60 };

static void spread(unsigned count, struct script *script)
{
    for (unsigned i = 0; i < count; i++)
        STEP(script, img_add_subject, SUBJECTS_APART * i);
}

static const struct shape img_shapes[] = {
    {.name = "subjects spread", .build = spread},
    {.name = NULL},
};

static void subject_there(const struct state *state, enum place place, uint32_t *n)
{
    (void)state;
    n[0] = index_of(place, GOMXELI_SUBJECT_ID_MAX + 1);
}

static const char *const range_places[PLACES] = {"one", "between two", "all", "all but the ends"};

static void range(const struct state *state, enum place place, uint32_t *n)
{
    static const uint32_t ranges[PLACES][2] = {
        [FIRST] = {0, 0},
        [MIDDLE] = {SUBJECTS_APART + 1, 2 * SUBJECTS_APART - 1},
        [LAST] = {0, GOMXELI_SUBJECT_ID_MAX},
        [OTHER] = {1, GOMXELI_SUBJECT_ID_MAX - 1},
    };
    (void)state;
    n[0] = ranges[place][0];
    n[1] = ranges[place][1];
}

static const struct call img_calls[] = {
    {CALLED(img_open)},
    {CALLED(img_add_subject), three_places, subject_there},
    {CALLED(img_remove_subject_range), range_places, range},
    {CALLED(img_has_subject), three_places, subject_there},
    {.name = NULL},
};

/* ------------------------------------------------------------------------ */
/* Kinds                                                                    */
/* ------------------------------------------------------------------------ */

const struct kind mcq_kind = LISTS(16, 128, some_counts);
const struct kind mcq_largest_kind = LISTS(32, 224, most_lists);
const struct kind iq_kind = KEYS(255, 128, some_counts);
const struct kind iq_largest_kind = KEYS(8191, 222, most_keys);

const struct kind img_kind = {
    .name = "img",
    .title = "the filter image",
    .len = GOMXELI_IMG_LENGTH,
    .entries = 128,
    .open = img_open,
    .counts = some_counts,
    .shapes = img_shapes,
    .calls = img_calls,
};
