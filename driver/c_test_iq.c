/* The key queues. */
#include "c_test.h"

#include <string.h>

/* ------------------------------------------------------------------------ */
/* Opening                                                                  */
/* ------------------------------------------------------------------------ */

static bool allowed(uint32_t k_max, uint32_t entries)
{
    return k_max <= 8191 && entries <= 222;
}

/* The least length from 9 + 8 * entries + k_max on that leaves 3 by 4. */
static size_t length_by_rule(uint32_t k_max, uint32_t entries)
{
    size_t len = 9 + 8 * (size_t)entries + k_max;
    while (len % 4 != 3)
        len++;
    return len;
}

/* With the right length accepted, with one byte less or more 1. */
static void test_open_allowed(uint32_t k_max, uint32_t entries)
{
    static struct state state;
    const uint32_t n[MOST_NUMBERS] = {k_max, entries};
    size_t len = gomxeli_iq_length(k_max, entries);
    CHECK(len == length_by_rule(k_max, entries));
    state.len = len - 1;
    CHECK(refuses(iq_open, &state, n, GOMXELI_NOT_WHOLE));
    state.len = len + 1;
    CHECK(refuses(iq_open, &state, n, GOMXELI_NOT_WHOLE));
    state.len = 0;
    CHECK(refuses(iq_open, &state, n, GOMXELI_NOT_WHOLE));
    state.len = len;
    CHECK_DONE(gomxeli_iq_open(LENT(&state), k_max, entries));
    CHECK_NONE(gomxeli_iq_front(LENT(&state)));
    CHECK_FLAG(gomxeli_iq_contains(LENT(&state), (uint16_t)k_max), 0);
    CHECK_PARTS(gomxeli_iq_insert(LENT(&state), (uint16_t)(k_max + 1), 5), 14, 0, k_max + 1, 5);
    if (entries == 0)
        CHECK_PARTS(gomxeli_iq_insert(LENT(&state), (uint16_t)k_max, 5), 14, 0, k_max, 5);
    else
        CHECK_DONE(gomxeli_iq_insert(LENT(&state), (uint16_t)k_max, 5));
    CHECK_FLAG(gomxeli_iq_contains(LENT(&state), (uint16_t)k_max), entries > 0);
}

/* As for the lists: 13 whatever the length, since 1 is given for allowed sizes only. */
static void test_open_not_allowed(uint32_t k_max, uint32_t entries)
{
    static struct state state;
    const uint32_t n[MOST_NUMBERS] = {k_max, entries};
    const size_t wrapped = length_by_rule(k_max % 8192, entries % 223);
    const size_t lengths[] = {0, 3, 11, 15, 1024, 9979, 9983, wrapped};
    CHECK(gomxeli_iq_length(k_max, entries) == 0);
    for (unsigned i = 0; i < sizeof lengths / sizeof lengths[0]; i++) {
        state.len = lengths[i];
        CHECK(refuses(iq_open, &state, n, GOMXELI_SIZE));
    }
}

static void test_open_sizes(void)
{
    static const uint32_t k_maxes[] = {0,    1,    2,     3,     4,     8190,      8191,
                                       8192, 8193, 65535, 65536, 73727, UINT32_MAX};
    static const uint32_t entries[] = {0, 1, 2, 221, 222, 223, 224, 255, 256, 65536, UINT32_MAX};
    for (unsigned i = 0; i < sizeof k_maxes / sizeof k_maxes[0]; i++) {
        for (unsigned j = 0; j < sizeof entries / sizeof entries[0]; j++) {
            if (allowed(k_maxes[i], entries[j]))
                test_open_allowed(k_maxes[i], entries[j]);
            else
                test_open_not_allowed(k_maxes[i], entries[j]);
        }
    }
    CHECK(GOMXELI_IQ_LENGTH(0, 0) == 11);
    CHECK(GOMXELI_IQ_LENGTH(GOMXELI_IQ_KEY_MAX, GOMXELI_IQ_ENTRIES_MAX) == 9979);
}

/* ------------------------------------------------------------------------ */
/* The calls                                                                */
/* ------------------------------------------------------------------------ */

static void test_values(void)
{
    static uint8_t state[GOMXELI_IQ_LENGTH(9, 2)];
    const size_t len = sizeof state;
    CHECK_DONE(gomxeli_iq_open(state, len, 9, 2));
    CHECK_DONE(gomxeli_iq_insert(state, len, 4, UINT32_MAX));
    CHECK_DONE(gomxeli_iq_insert(state, len, 9, 0));
    CHECK_SECOND(gomxeli_iq_get(state, len, 4), UINT32_MAX);
    CHECK_SECOND(gomxeli_iq_get(state, len, 9), 0);
    CHECK_NONE(gomxeli_iq_get(state, len, 5));
    CHECK_NONE(gomxeli_iq_get(state, len, 10));
    CHECK_FLAG(gomxeli_iq_get_mut(state, len, 4, 0x12345678), 1);
    CHECK_FLAG(gomxeli_iq_get_mut(state, len, 5, 1), 0);
    CHECK_SECOND(gomxeli_iq_get(state, len, 4), 0x12345678);
    CHECK_SECOND(gomxeli_iq_get(state, len, 9), 0);
    CHECK_PARTS(gomxeli_iq_insert(state, len, 0, 0xabcdef01), 14, 0, 0, 0xabcdef01);
    CHECK_PARTS(gomxeli_iq_insert(state, len, UINT16_MAX, 1), 14, 0, UINT16_MAX, 1);
    CHECK_SECOND(gomxeli_iq_remove(state, len, 4), 0x12345678);
    CHECK_NONE(gomxeli_iq_remove(state, len, 4));
    CHECK_NONE(gomxeli_iq_remove(state, len, UINT16_MAX));
    CHECK_FLAG(gomxeli_iq_contains(state, len, 4), 0);
    CHECK_DONE(gomxeli_iq_insert(state, len, 0, 3));
    CHECK_FLAG(gomxeli_iq_contains(state, len, 0), 1);
}

static void test_queue(void)
{
    static uint8_t state[GOMXELI_IQ_LENGTH(8191, 3)];
    const size_t len = sizeof state;
    CHECK_DONE(gomxeli_iq_open(state, len, 8191, 3));
    CHECK_NONE(gomxeli_iq_front(state, len));
    CHECK_NONE(gomxeli_iq_back(state, len));
    CHECK_REFUSED(gomxeli_iq_enqueue_front(state, len, 100), GOMXELI_NO_KEY);
    CHECK_REFUSED(gomxeli_iq_enqueue_back(state, len, 8191), GOMXELI_NO_KEY);
    CHECK_REFUSED(gomxeli_iq_dequeue(state, len, UINT16_MAX), GOMXELI_NO_KEY);
    CHECK_DONE(gomxeli_iq_insert(state, len, 100, 1));
    CHECK_DONE(gomxeli_iq_insert(state, len, 200, 2));
    CHECK_DONE(gomxeli_iq_insert(state, len, 8191, 3));
    CHECK_NONE(gomxeli_iq_front(state, len));
    CHECK_DONE(gomxeli_iq_enqueue_back(state, len, 100));
    CHECK_DONE(gomxeli_iq_enqueue_back(state, len, 200));
    CHECK_DONE(gomxeli_iq_enqueue_front(state, len, 8191)); /* 8191, 100, 200 */
    CHECK_FIRST(gomxeli_iq_front(state, len), 8191);
    CHECK_FIRST(gomxeli_iq_back(state, len), 200);
    CHECK_DONE(gomxeli_iq_enqueue_back(state, len, 8191)); /* 100, 200, 8191 */
    CHECK_FIRST(gomxeli_iq_back(state, len), 8191);
    CHECK_DONE(gomxeli_iq_dequeue(state, len, 100));
    CHECK_DONE(gomxeli_iq_dequeue(state, len, 100)); /* in the map, not in the queue */
    CHECK_FIRST(gomxeli_iq_front(state, len), 200);
    CHECK_SECOND(gomxeli_iq_remove(state, len, 8191), 3); /* out of the queue too */
    CHECK_FIRST(gomxeli_iq_back(state, len), 200);
    CHECK_FLAG(gomxeli_iq_contains(state, len, 100), 1);
}

/* Key 3 value 7, then key 3 value 9: 7 comes back, 9 is not kept; remove 3: 16. */
static void test_handed_back(void)
{
    static uint8_t state[GOMXELI_IQ_LENGTH(3, 2)];
    const size_t len = sizeof state;
    CHECK_DONE(gomxeli_iq_open(state, len, 3, 2));
    CHECK_DONE(gomxeli_iq_insert(state, len, 3, 7));
    CHECK_SECOND(gomxeli_iq_insert(state, len, 3, 9), 7);
    CHECK_REFUSED(gomxeli_iq_remove(state, len, 3), GOMXELI_VALUE_GONE);

    CHECK_REFUSED(gomxeli_iq_insert(state, len, 3, 9), GOMXELI_VALUE_GONE);
    CHECK_NONE(gomxeli_iq_get(state, len, 3));
    CHECK_FLAG(gomxeli_iq_get_mut(state, len, 3, 9), 0);
    CHECK_FLAG(gomxeli_iq_contains(state, len, 3), 1);
    CHECK_DONE(gomxeli_iq_enqueue_front(state, len, 3));
    CHECK_FIRST(gomxeli_iq_front(state, len), 3);
    CHECK_FIRST(gomxeli_iq_back(state, len), 3);
    CHECK_DONE(gomxeli_iq_dequeue(state, len, 3));
}

/* A key with the bits that the state's key words add is another key. */
static void test_key_bits(void)
{
    static uint8_t state[GOMXELI_IQ_LENGTH(3, 2)];
    const size_t len = sizeof state;
    CHECK_DONE(gomxeli_iq_open(state, len, 3, 2));
    CHECK_DONE(gomxeli_iq_insert(state, len, 3, 7));
    for (unsigned high = 1; high < 8; high++) {
        uint16_t key = (uint16_t)(8192 * high + 3);
        CHECK_FLAG(gomxeli_iq_contains(state, len, key), 0);
        CHECK_NONE(gomxeli_iq_remove(state, len, key));
        CHECK_PARTS(gomxeli_iq_insert(state, len, key, 1), 14, 0, key, 1);
        CHECK_REFUSED(gomxeli_iq_enqueue_back(state, len, key), GOMXELI_NO_KEY);
    }
}

/*
 * 14 and 16 on insert never meet: 16 is for a key that is in the map, and such a
 * key is neither above K_MAX nor new. Where no entry is free, a key without its
 * value gives 16 and a new one 14; where one is free, the same key gives 16 again
 * and a key above K_MAX 14.
 */
static void test_not_taken_or_gone(void)
{
    static uint8_t state[GOMXELI_IQ_LENGTH(5, 2)];
    const size_t len = sizeof state;
    CHECK_DONE(gomxeli_iq_open(state, len, 5, 2));
    CHECK_DONE(gomxeli_iq_insert(state, len, 1, 10));
    CHECK_SECOND(gomxeli_iq_insert(state, len, 1, 11), 10);
    CHECK_REFUSED(gomxeli_iq_insert(state, len, 1, 12), GOMXELI_VALUE_GONE);
    CHECK_PARTS(gomxeli_iq_insert(state, len, 6, 12), 14, 0, 6, 12);
    CHECK_DONE(gomxeli_iq_insert(state, len, 2, 20));
    CHECK_REFUSED(gomxeli_iq_insert(state, len, 1, 12), GOMXELI_VALUE_GONE);
    CHECK_PARTS(gomxeli_iq_insert(state, len, 3, 12), 14, 0, 3, 12);
    CHECK_PARTS(gomxeli_iq_insert(state, len, 6, 12), 14, 0, 6, 12);
}

/* ------------------------------------------------------------------------ */
/* The bytes                                                                */
/* ------------------------------------------------------------------------ */

/* K_MAX 1 and 2 entries: sizes, 4 nodes, 2 key words, 2 values, 2 index bytes, 1 more. */
enum { SMALL = 27, FF = 255 };

static const uint8_t small_opened[SMALL] = {
    1, 0, 2, 2, 0, 0, 2, 3, 3, 1, 1, 2, FF, FF, FF, FF, FF, FF, FF, FF, FF, FF, FF, FF, FF, FF, FF,
};

static void check_bytes(const uint8_t *state, const uint8_t *expected)
{
    CHECK(memcmp(state, expected, SMALL) == 0);
}

/* The very bytes that opening and the calls leave. */
static void test_bytes(void)
{
    /* Key 1 on entry 0, queued. */
    static const uint8_t inserted[SMALL] = {
        1, 0, 2, 2, 2, 2, 3, 3, 0, 0, 1, 1, 1, 0, FF, FF, 4, 3, 2, 1, FF, FF, FF, FF, FF, 0, FF,
    };
    /* Its value handed back. */
    static const uint8_t handed[SMALL] = {
        1, 0, 2, 2, 2, 2, 3, 3, 0, 0, 1, 1, 1, 32, FF, FF, 4, 3, 2, 1, FF, FF, FF, FF, FF, 0, FF,
    };
    /* Instead, removed: entry 0 is the last free one, its value's bytes stay. */
    static const uint8_t removed[SMALL] = {
        1, 0, 2, 2, 0, 0, 3, 2, 1, 3, 2, 1, FF, FF, FF, FF, 4, 3, 2, 1, FF, FF, FF, FF, FF, FF, FF,
    };
    uint8_t state[GOMXELI_IQ_LENGTH(1, 2)], copy[SMALL];
    CHECK(sizeof state == SMALL);
    memset(state, 0xa5, SMALL);
    CHECK_DONE(gomxeli_iq_open(state, SMALL, 1, 2));
    check_bytes(state, small_opened);
    CHECK_DONE(gomxeli_iq_insert(state, SMALL, 1, 0x01020304));
    CHECK_DONE(gomxeli_iq_enqueue_back(state, SMALL, 1));
    check_bytes(state, inserted);
    memcpy(copy, state, SMALL);
    CHECK_SECOND(gomxeli_iq_insert(copy, SMALL, 1, 9), 0x01020304);
    check_bytes(copy, handed);
    CHECK_SECOND(gomxeli_iq_remove(state, SMALL, 1), 0x01020304);
    check_bytes(state, removed);
}

/*
 * Bytes that say nothing are neither tested nor changed: another word for 'no key',
 * another index for 'no entry', a value of no key, the byte after the index.
 */
static void test_silent_bytes(void)
{
    uint8_t state[SMALL], expected[SMALL];
    memcpy(state, small_opened, SMALL);
    state[13] = 64;            /* entry 0: 16,639, no key */
    state[14] = state[20] = 7; /* entry 1: 65,287, no key, with a value */
    state[24] = 2;             /* key 0: no entry */
    state[26] = 9;             /* after the index */
    memcpy(expected, state, SMALL);
    CHECK_FLAG(gomxeli_iq_contains(state, SMALL, 0), 0);
    CHECK_NONE(gomxeli_iq_remove(state, SMALL, 0));
    check_bytes(state, expected);
    CHECK_DONE(gomxeli_iq_insert(state, SMALL, 1, 5));
    CHECK_SECOND(gomxeli_iq_remove(state, SMALL, 1), 5);
    CHECK(state[12] == 255 && state[13] == 255 && state[25] == 255);
    CHECK(state[14] == 7 && state[20] == 7 && state[24] == 2 && state[26] == 9);
}

/* Bytes as opening would leave them at sizes that are not allowed: not whole. */
static void test_states_past_limits(void)
{
    static const struct {
        unsigned k_max, entries;
    } sizes[] = {{8192, 0}, {8192, 1}, {9000, 2}, {0, 223}, {5, 254}};
    static struct state state;
    const uint32_t n[MOST_NUMBERS] = {0, 0};
    for (unsigned i = 0; i < sizeof sizes / sizeof sizes[0]; i++) {
        unsigned entries = sizes[i].entries;
        const uint8_t header[4] = {(uint8_t)(sizes[i].k_max % 256), (uint8_t)(sizes[i].k_max / 256),
                                   2, (uint8_t)entries};
        state.len = length_by_rule(sizes[i].k_max, entries);
        memset(state.byte, 255, state.len);
        memcpy(state.byte, header, sizeof header);
        /* The queue is empty, the free entries are on a cycle with node 1. */
        memset(state.byte + 4, 0, 2);
        for (unsigned e = 0; e <= entries; e++) {
            state.byte[6 + 2 * e] = (uint8_t)(e == entries ? 1 : e + 2);
            state.byte[7 + 2 * e] = (uint8_t)(e == 0 ? entries + 1 : e);
        }
        CHECK(refuses(iq_front, &state, n, GOMXELI_NOT_WHOLE));
        CHECK(refuses(iq_insert, &state, n, GOMXELI_NOT_WHOLE));
    }
}

/* ------------------------------------------------------------------------ */
/* Doubly wrong calls                                                       */
/* ------------------------------------------------------------------------ */

/*
 * K_MAX 5 and 4 entries: key 1 has its value and is queued, key 2 has not; the
 * entries 2 and 3 are free, or taken by keys 4 and 5.
 */
enum { K_MAX = 5, ENTRIES = 4 };

enum { WORDS_AT = 8 + 2 * ENTRIES, INDEX_AT = 8 + 8 * ENTRIES };

static void large_k_max(struct state *state)
{
    state->byte[1] = 8192 / 256;
}

static void one_class(struct state *state)
{
    state->byte[2] = 1;
}

static void many_entries(struct state *state)
{
    state->byte[3] = 223;
}

static void link_out(struct state *state)
{
    state->byte[4] = 2 + ENTRIES;
}

static void open_cycle(struct state *state)
{
    state->byte[4] = 3;
}

/* The index no longer names the entry of key 1. */
static void index_erased(struct state *state)
{
    state->byte[INDEX_AT + 1] = 255;
}

/* The index names an entry for key 0, which no entry has. */
static void index_invented(struct state *state)
{
    state->byte[INDEX_AT] = 0;
}

/* Entry 0 has key 1 no longer, but the index says so. */
static void key_erased(struct state *state)
{
    memset(state->byte + WORDS_AT, 255, 2);
}

/* Entry 0's key is above K_MAX; the byte after the index looks like its index. */
static void key_past(struct state *state)
{
    state->byte[WORDS_AT] = K_MAX + 1;
    state->byte[INDEX_AT + 1] = 255;
    state->byte[INDEX_AT + K_MAX + 1] = 0;
}

/* Entry 0, which has a key, alone among the free ones; the queue empty. */
static void free_with_key(struct state *state)
{
    static const uint8_t nodes[2 * (2 + ENTRIES)] = {0, 0, 2, 2, 1, 1, 3, 3, 4, 4, 5, 5};
    memcpy(state->byte + 4, nodes, sizeof nodes);
}

/* Entry 3, which has no key, is not among the free ones. */
static void keyless_not_free(struct state *state)
{
    static const uint8_t nodes[2 * (2 + ENTRIES)] = {2, 2, 4, 4, 0, 0, 3, 3, 1, 1, 5, 5};
    memcpy(state->byte + 4, nodes, sizeof nodes);
}

static const struct breaking breakings[] = {
    {"one byte short", cut_last},
    {"one byte long", add_byte},
    {"empty", cut_all},
    {"K_MAX above 8191", large_k_max},
    {"one class", one_class},
    {"223 entries", many_entries},
    {"a link to no node", link_out},
    {"a cycle not closed", open_cycle},
    {"a key that the index lacks", index_erased},
    {"an index without a key", index_invented},
    {"an index of an entry without key", key_erased},
    {"a key above K_MAX", key_past},
    {"a free entry with a key", free_with_key},
    {"an entry neither free nor with a key", keyless_not_free},
    {NULL, NULL},
};

/*
 * All pairs: 1 with 14, for a key above K_MAX and, with no entry free, for a new
 * one; 1 with 15; 1 with 16. 14 and 16 can not meet, see test_not_taken_or_gone; 15
 * and 16 are of different calls, and so are 13, which is of openings alone, and the
 * three. contains, get, get_mut, front and back have no refusal but 1.
 */
static const struct pair pairs_with_free[] = {
    {"insert: key above K_MAX", iq_insert, {3, 7}, {6, 7}, GOMXELI_NOT_TAKEN},
    {"insert: key above 8191", iq_insert, {1, 7}, {UINT16_MAX, UINT32_MAX}, GOMXELI_NOT_TAKEN},
    {"insert: value gone", iq_insert, {3, 7}, {2, 7}, GOMXELI_VALUE_GONE},
    {"remove: value gone", iq_remove, {1}, {2}, GOMXELI_VALUE_GONE},
    {"enqueue_front: no key", iq_enqueue_front, {1}, {3}, GOMXELI_NO_KEY},
    {"enqueue_front: key above K_MAX", iq_enqueue_front, {2}, {6}, GOMXELI_NO_KEY},
    {"enqueue_back: no key", iq_enqueue_back, {2}, {0}, GOMXELI_NO_KEY},
    {"enqueue_back: key above K_MAX", iq_enqueue_back, {1}, {UINT16_MAX}, GOMXELI_NO_KEY},
    {"dequeue: no key", iq_dequeue, {1}, {5}, GOMXELI_NO_KEY},
    {"dequeue: key above K_MAX", iq_dequeue, {2}, {8192}, GOMXELI_NO_KEY},
    {NULL, NULL, {0}, {0}, 0},
};

static const struct pair pairs_with_none_free[] = {
    {"insert: new, none free", iq_insert, {4, 7}, {3, 7}, GOMXELI_NOT_TAKEN},
    {"insert: above K_MAX, none free", iq_insert, {5, 7}, {6, 0}, GOMXELI_NOT_TAKEN},
    {"insert: value gone, none free", iq_insert, {1, 7}, {2, 7}, GOMXELI_VALUE_GONE},
    {NULL, NULL, {0}, {0}, 0},
};

static void test_pairs(void)
{
    static struct state whole;
    whole.len = GOMXELI_IQ_LENGTH(K_MAX, ENTRIES);
    CHECK_DONE(gomxeli_iq_open(LENT(&whole), K_MAX, ENTRIES));
    CHECK_DONE(gomxeli_iq_insert(LENT(&whole), 1, 10));
    CHECK_DONE(gomxeli_iq_insert(LENT(&whole), 2, 20));
    CHECK_SECOND(gomxeli_iq_insert(LENT(&whole), 2, 21), 20);
    CHECK_DONE(gomxeli_iq_enqueue_back(LENT(&whole), 1));
    check_pairs(pairs_with_free, &whole, breakings);

    CHECK_DONE(gomxeli_iq_insert(LENT(&whole), 4, 40));
    CHECK_DONE(gomxeli_iq_insert(LENT(&whole), 5, 50));
    check_pairs(pairs_with_none_free, &whole, breakings);
}

/* 13 with 1 at opening: 13. */
static void test_open_pairs(void)
{
    static const struct pair open_pairs[] = {
        {"open: K_MAX 8192", iq_open, {5, 4}, {8192, 4}, GOMXELI_SIZE},
        {"open: 223 entries", iq_open, {5, 4}, {5, 223}, GOMXELI_SIZE},
        {"open: both", iq_open, {5, 4}, {UINT32_MAX, UINT32_MAX}, GOMXELI_SIZE},
    };
    static struct state right, wrong;
    right.len = GOMXELI_IQ_LENGTH(5, 4);
    wrong.len = right.len + 4;
    for (unsigned i = 0; i < sizeof open_pairs / sizeof open_pairs[0]; i++)
        check_pair(&open_pairs[i], "wrong length", &right, &wrong, GOMXELI_NOT_WHOLE, GOMXELI_SIZE);
}

/* The calls with no refusal but 1: no number is wrong for a whole state. */
static void test_calls_with_one_refusal(void)
{
    static struct state state;
    static call_function *const calls[] = {iq_contains, iq_get, iq_get_mut, iq_front, iq_back};
    const uint32_t n[MOST_NUMBERS] = {UINT16_MAX, 1};
    state.len = GOMXELI_IQ_LENGTH(5, 4);
    CHECK_DONE(gomxeli_iq_open(LENT(&state), 5, 4));
    for (unsigned i = 0; i < sizeof calls / sizeof calls[0]; i++)
        CHECK(gomxeli_number(calls[i](LENT(&state), n)) == GOMXELI_ACCEPTED);
    state.byte[INDEX_AT] = 0;
    for (unsigned i = 0; i < sizeof calls / sizeof calls[0]; i++)
        CHECK(refuses(calls[i], &state, n, GOMXELI_NOT_WHOLE));
}

void test_iq(void)
{
    test_open_sizes();
    test_values();
    test_queue();
    test_handed_back();
    test_key_bits();
    test_not_taken_or_gone();
    test_bytes();
    test_silent_bytes();
    test_states_past_limits();
    test_pairs();
    test_open_pairs();
    test_calls_with_one_refusal();
}
