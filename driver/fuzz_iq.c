/* Damaged input for the key queues. */
#include "fuzz.h"

#include <string.h>

#include "random.h"
#include "state_iq.h"
#include "whole.h"

enum { MOST_KEY = GOMXELI_IQ_KEY_MAX, MOST_ENTRIES = GOMXELI_IQ_ENTRIES_MAX };

/* ------------------------------------------------------------------------ */
/* The calls on the plain meaning                                           */
/* ------------------------------------------------------------------------ */

/* The key's entry where it has its value, else NULL. */
static struct keyed *find_value(struct keys *keys, uint32_t key)
{
    unsigned i = keys_find(keys, key);
    return i == NO_ENTRY || keys->entry[i].spent ? NULL : &keys->entry[i];
}

static gomxeli_answer model_contains(void *meaning, const uint32_t *n)
{
    return yes_or_no(keys_find(meaning, n[0]) != NO_ENTRY);
}

static gomxeli_answer model_get(void *meaning, const uint32_t *n)
{
    const struct keyed *keyed = find_value(meaning, n[0]);
    return keyed == NULL ? done() : some_second(keyed->value);
}

static gomxeli_answer model_get_mut(void *meaning, const uint32_t *n)
{
    struct keyed *keyed = find_value(meaning, n[0]);
    if (keyed != NULL)
        keyed->value = n[1];
    return yes_or_no(keyed != NULL);
}

static gomxeli_answer insert_new(struct keys *keys, const uint32_t *n)
{
    const struct list *free_entries = &keys->lists.list[FREE_CLASS];
    if (n[0] > keys->k_max || free_entries->count == 0)
        return answer(GOMXELI_NOT_TAKEN, 0, n[0], n[1]);
    unsigned i = free_entries->entry[0];
    lists_remove(&keys->lists, i);
    keys->entry[i] = (struct keyed){true, false, (uint16_t)n[0], n[1]};
    return done();
}

static gomxeli_answer model_insert(void *meaning, const uint32_t *n)
{
    struct keys *keys = meaning;
    unsigned i = keys_find(keys, n[0]);
    if (i == NO_ENTRY)
        return insert_new(keys, n);
    if (keys->entry[i].spent)
        return refusal(GOMXELI_VALUE_GONE);
    keys->entry[i].spent = true;
    return some_second(keys->entry[i].value);
}

static gomxeli_answer model_remove(void *meaning, const uint32_t *n)
{
    struct keys *keys = meaning;
    unsigned i = keys_find(keys, n[0]);
    if (i == NO_ENTRY)
        return done();
    if (keys->entry[i].spent)
        return refusal(GOMXELI_VALUE_GONE);
    keys->entry[i].has_key = false;
    lists_remove(&keys->lists, i);
    list_push_back(&keys->lists.list[FREE_CLASS], i);
    return some_second(keys->entry[i].value);
}

static gomxeli_answer model_front(void *meaning, const uint32_t *n)
{
    const struct keys *keys = meaning;
    const struct list *queue = &keys->lists.list[QUEUE_CLASS];
    (void)n;
    return queue->count == 0 ? done() : some_first(keys->entry[queue->entry[0]].key);
}

static gomxeli_answer model_back(void *meaning, const uint32_t *n)
{
    const struct keys *keys = meaning;
    const struct list *queue = &keys->lists.list[QUEUE_CLASS];
    (void)n;
    return queue->count == 0 ? done() : some_first(keys->entry[queue->entry[queue->count - 1]].key);
}

/* Takes the key's entry out of the queue and pushes it, if there is a push. */
static gomxeli_answer requeue(struct keys *keys, uint32_t key,
                              void (*push)(struct list *, unsigned))
{
    unsigned i = keys_find(keys, key);
    if (i == NO_ENTRY)
        return refusal(GOMXELI_NO_KEY);
    lists_remove(&keys->lists, i);
    if (push != NULL)
        push(&keys->lists.list[QUEUE_CLASS], i);
    return done();
}

static gomxeli_answer model_enqueue_front(void *meaning, const uint32_t *n)
{
    return requeue(meaning, n[0], list_push_front);
}

static gomxeli_answer model_enqueue_back(void *meaning, const uint32_t *n)
{
    return requeue(meaning, n[0], list_push_back);
}

static gomxeli_answer model_dequeue(void *meaning, const uint32_t *n)
{
    return requeue(meaning, n[0], NULL);
}

/* ------------------------------------------------------------------------ */
/* Sizes and numbers                                                        */
/* ------------------------------------------------------------------------ */

static void draw_sizes(uint32_t *n)
{
    n[0] = random_size(MOST_KEY);
    n[1] = random_size(MOST_ENTRIES);
}

static size_t length(const uint32_t *n)
{
    return gomxeli_iq_length(n[0], n[1]);
}

/* Sizes that the length is right for, where there are such. */
static void draw_sizes_of(size_t len, uint32_t *n)
{
    uint32_t room = len >= 11 ? (uint32_t)len - 11 : 0;
    uint32_t most = room / 8 < MOST_ENTRIES ? room / 8 : MOST_ENTRIES;
    n[1] = one_in(2) ? most : below(most + 1);
    n[0] = (room - 8 * n[1]) / 4 * 4 + below(4);
    n[0] -= n[0] > 0;
}

static void draw_open(const struct bytes *state, uint32_t *n)
{
    draw_sizes_of(state->len, n);
    if (one_in(4))
        n[0] = number_near(MOST_KEY + 1);
    if (one_in(4))
        n[1] = number_near(MOST_ENTRIES + 1);
}

/* Some entry's key word, of a key if one is soon found; 0 if there are no words. */
static uint32_t some_key_word(const struct bytes *state)
{
    uint32_t entries = state->len >= 4 ? state->byte[3] : 0;
    uint32_t found = 0;
    if (entries == 0 || state->len < 8 + 4 * (size_t)entries)
        return 0;
    for (unsigned tries = 0; tries < 4; tries++) {
        const uint8_t *word = state->byte + 8 + 2 * entries + 2 * below(entries);
        found = word[0] + 256u * word[1];
        if (found < 16384)
            break;
    }
    return found;
}

/* A key of the state, the same with the bits that key words add, or one near K_MAX. */
static uint32_t draw_key(const struct bytes *state)
{
    uint32_t k_max = state->len >= 4 ? state->byte[0] + 256u * state->byte[1] : 0;
    uint32_t word = some_key_word(state);
    switch (below(8)) {
    case 0:
    case 1:
    case 2:
    case 3:
        return word % 8192;
    case 4:
        return word;
    case 5:
        return k_max + below(3);
    default:
        return number_near(k_max + 1) & 0xffff;
    }
}

static uint32_t draw_value(void)
{
    return one_in(4) ? number_near(1) : (uint32_t)random_bits();
}

static void draw_key_value(const struct bytes *state, uint32_t *n)
{
    n[0] = draw_key(state) & 0xffff;
    n[1] = draw_value();
}

/* ------------------------------------------------------------------------ */
/* States                                                                   */
/* ------------------------------------------------------------------------ */

static struct keys plain_keys;

static gomxeli_answer open_plain(struct bytes *state, const uint32_t *n)
{
    if (n[0] > MOST_KEY || n[1] > MOST_ENTRIES)
        return refusal(GOMXELI_SIZE);
    size_t index_end = 9 + 8 * (size_t)n[1] + n[0];
    if (state->len != index_end + (3 - index_end % 4))
        return refusal(GOMXELI_NOT_WHOLE);
    memset(state->byte, 255, state->len);
    keys_clear(&plain_keys, n[0], n[1]);
    keys_lay(&plain_keys, state->byte);
    return done();
}

static void read_keys(const uint8_t *state, void *meaning)
{
    keys_read(state, meaning);
}

static void lay_keys(const void *meaning, uint8_t *state)
{
    keys_lay(meaning, state);
}

/* A key that is not taken yet; there must be one. */
static uint16_t draw_new_key(bool *taken, unsigned k_max)
{
    unsigned key = below(k_max + 1);
    while (taken[key])
        key = key == k_max ? 0 : key + 1;
    taken[key] = true;
    return (uint16_t)key;
}

/* How many keys: none, all that fit, or some. */
static unsigned draw_key_count(const uint32_t *n)
{
    unsigned most = n[1] < n[0] + 1 ? n[1] : n[0] + 1;
    switch (below(4)) {
    case 0:
        return most;
    case 1:
        return most - (most > 0);
    default:
        return below(most + 1);
    }
}

/*
 * Any keys on any entries, some without their values, some in the queue; the rest
 * free; both lists in any order.
 */
static void draw_meaning(const uint32_t *n, void *meaning)
{
    static bool taken[MOST_KEY + 1];
    struct keys *keys = meaning;
    uint8_t order[MOST_ENTRIES];
    unsigned count = draw_key_count(n);
    memset(taken, 0, sizeof taken);
    keys->k_max = n[0];
    keys->entries = n[1];
    lists_clear(&keys->lists, KEYS_CLASSES, n[1]);
    random_order(order, n[1]);
    for (unsigned j = 0; j < n[1]; j++) {
        unsigned i = order[j];
        keys->entry[i] = (struct keyed){false, false, 0, 0};
        if (j < count)
            keys->entry[i] =
                (struct keyed){true, one_in(3), draw_new_key(taken, n[0]), draw_value()};
        else
            list_push_back(&keys->lists.list[FREE_CLASS], i);
        if (j < count && one_in(2))
            list_push_back(&keys->lists.list[QUEUE_CLASS], i);
    }
}

/* Moves an entry to any class or none, whether it has a key or not. */
static void misplace(struct lists *lists)
{
    unsigned i = below(lists->entries);
    unsigned cls = below(KEYS_CLASSES + 1);
    lists_remove(lists, i);
    if (cls < KEYS_CLASSES)
        list_push_back(&lists->list[cls], i);
}

/* Changes one key, one index byte or one entry's place of a whole state. */
static void draw_near_miss(struct bytes *state, const uint32_t *n)
{
    uint8_t *word = state->byte + 8 + 2 * n[1] + 2 * below(n[1]);
    uint8_t *index = state->byte + 8 + 8 * n[1] + below(n[0] + 1);
    uint32_t key = below(4) << 13 | below(n[0] + 2);
    draw_whole(&kind_iq, n, state);
    switch (below(3)) {
    case 0:
        word[0] = (uint8_t)(key % 256);
        word[1] = (uint8_t)(key / 256);
        break;
    case 1:
        *index = (uint8_t)below(n[1] + 2);
        break;
    default:
        misplace(&plain_keys.lists);
        keys_lay(&plain_keys, state->byte);
        break;
    }
}

static void lay_sizes(struct bytes *state, const uint32_t *n)
{
    state->byte[0] = (uint8_t)(n[0] % 256);
    state->byte[1] = (uint8_t)(n[0] / 256);
    state->byte[2] = KEYS_CLASSES;
    state->byte[3] = (uint8_t)n[1];
}

/* No keys and all entries free, at sizes that are not allowed. */
static void draw_past(struct bytes *state)
{
    bool many_keys = one_in(2);
    const uint32_t n[MOST_NUMBERS] = {
        many_keys ? MOST_KEY + 1 + random_size(1000) : random_size(MOST_KEY),
        many_keys ? random_size(100) : MOST_ENTRIES + 1 + random_size(31),
    };
    state->len = GOMXELI_IQ_LENGTH(n[0], n[1]);
    memset(state->byte, 255, state->len);
    lay_sizes(state, n);
    uint8_t *nodes = state->byte + 4;
    nodes[0] = nodes[1] = 0;
    for (unsigned i = 0; i <= n[1]; i++) {
        unsigned next = i == n[1] ? 1 : i + 2;
        nodes[2 * (i + 1)] = (uint8_t)next;
        nodes[2 * next + 1] = (uint8_t)(i + 1);
    }
}

static void draw_bytes(struct bytes *state)
{
    uint32_t n[MOST_NUMBERS];
    draw_sizes(n);
    if (one_in(6)) {
        draw_past(state);
    } else if (n[1] > 0 && !one_in(4)) {
        draw_near_miss(state, n);
    } else {
        state->len = 0;
        resize(state, length(n));
        lay_sizes(state, n);
    }
}

/* ------------------------------------------------------------------------ */
/* Sweeps                                                                   */
/* ------------------------------------------------------------------------ */

static void sweep_opening(uint32_t k_max, uint32_t entries)
{
    static struct bytes state;
    const uint32_t n[MOST_NUMBERS] = {k_max, entries};
    if (!due())
        return;
    state.len = 0;
    resize(&state, GOMXELI_IQ_LENGTH(k_max, entries) + (one_in(4) ? below(5) : 0));
    try_call(&kind_iq, &kind_iq.calls[0], SWEPT, &state, n);
}

/* Openings at all sizes of one with the ends of the other, and one past. */
static void sweep_openings(void)
{
    for (uint32_t k_max = 0; k_max <= MOST_KEY + 1; k_max++) {
        sweep_opening(k_max, 0);
        sweep_opening(k_max, 1 + below(MOST_ENTRIES - 1));
        sweep_opening(k_max, MOST_ENTRIES);
        sweep_opening(k_max, MOST_ENTRIES + 1);
    }
    for (uint32_t entries = 0; entries <= MOST_ENTRIES + 1; entries++) {
        sweep_opening(0, entries);
        sweep_opening(below(MOST_KEY), entries);
        sweep_opening(MOST_KEY, entries);
        sweep_opening(MOST_KEY + 1, entries);
    }
}

/*
 * All states of one entry and K_MAX 1: links to each node and one past, the key
 * words of each key with its value, without and of no key, and each index.
 */
static void sweep_small(void)
{
    static const uint16_t words[] = {0, 1, 2, 8191, 8192, 8193, 8194, 16383, 16384, 65535};
    static const uint8_t indexes[] = {0, 1, 255};
    enum { LINKS = 4096, WORDS = sizeof words / sizeof words[0] };
    static struct bytes state;
    for (uint32_t at = 0; at < LINKS * WORDS * 9; at++) {
        struct call *call = &kind_iq.calls[1 + at % (kind_iq.call_count - 1)];
        uint32_t links = at % LINKS;
        uint16_t word = words[at / LINKS % WORDS];
        const uint8_t header[4] = {1, 0, 2, 1};
        if (!due())
            continue;
        state.len = 0;
        resize(&state, GOMXELI_IQ_LENGTH(1, 1));
        memcpy(state.byte, header, sizeof header);
        for (unsigned i = 0; i < 6; i++, links /= 4)
            state.byte[4 + i] = (uint8_t)(links % 4);
        state.byte[10] = (uint8_t)(word % 256);
        state.byte[11] = (uint8_t)(word / 256);
        state.byte[16] = indexes[at / (LINKS * WORDS) % 3];
        state.byte[17] = indexes[at / (LINKS * WORDS * 3)];
        try_drawn(&kind_iq, call, SWEPT, &state);
    }
}

static void sweep(void)
{
    sweep_openings();
    sweep_small();
}

/* ------------------------------------------------------------------------ */
/* The kind                                                                 */
/* ------------------------------------------------------------------------ */

#define CALL(name, outcomes, model, draw) \
    {{"iq_" #name, (outcomes) | REFUSED(GOMXELI_NOT_WHOLE), {0}}, iq_##name, model, draw}

static struct call calls[] = {
    CALL(open, PLAIN | REFUSED(GOMXELI_SIZE), NULL, draw_open),
    CALL(contains, PLAIN | SOME, model_contains, draw_key_value),
    CALL(get, PLAIN | SOME, model_get, draw_key_value),
    CALL(get_mut, PLAIN | SOME, model_get_mut, draw_key_value),
    CALL(insert, PLAIN | SOME | REFUSED(GOMXELI_NOT_TAKEN) | REFUSED(GOMXELI_VALUE_GONE),
         model_insert, draw_key_value),
    CALL(remove, PLAIN | SOME | REFUSED(GOMXELI_VALUE_GONE), model_remove, draw_key_value),
    CALL(front, PLAIN | SOME, model_front, draw_key_value),
    CALL(back, PLAIN | SOME, model_back, draw_key_value),
    CALL(enqueue_front, PLAIN | REFUSED(GOMXELI_NO_KEY), model_enqueue_front, draw_key_value),
    CALL(enqueue_back, PLAIN | REFUSED(GOMXELI_NO_KEY), model_enqueue_back, draw_key_value),
    CALL(dequeue, PLAIN | REFUSED(GOMXELI_NO_KEY), model_dequeue, draw_key_value),
};

static const struct model model = {whole_iq, &plain_keys, read_keys, lay_keys};

struct kind kind_iq = {
    .name = "iq",
    .calls = calls,
    .call_count = sizeof calls / sizeof calls[0],
    .draw_sizes = draw_sizes,
    .length = length,
    .open = open_plain,
    .refuse = refuse_state,
    .model = &model,
    .draw_meaning = draw_meaning,
    .draw_bytes = draw_bytes,
    .sweep = sweep,
};
