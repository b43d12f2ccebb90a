/* The lists. */
#include "c_test.h"

#include <string.h>

/* ------------------------------------------------------------------------ */
/* Opening                                                                  */
/* ------------------------------------------------------------------------ */

static bool allowed(uint32_t classes, uint32_t entries)
{
    return classes >= 1 && classes <= 32 && entries <= 224;
}

/* With the right length accepted, with one byte less or more 1. */
static void test_open_allowed(uint32_t classes, uint32_t entries)
{
    static struct state state;
    const uint32_t n[MOST_NUMBERS] = {classes, entries};
    size_t len = gomxeli_mcq_length(classes, entries);
    CHECK(len == 2 + 2 * (size_t)(classes + entries));
    state.len = len - 1;
    CHECK(refuses(mcq_open, &state, n, GOMXELI_NOT_WHOLE));
    state.len = len + 1;
    CHECK(refuses(mcq_open, &state, n, GOMXELI_NOT_WHOLE));
    state.len = 0;
    CHECK(refuses(mcq_open, &state, n, GOMXELI_NOT_WHOLE));
    state.len = len;
    CHECK_DONE(gomxeli_mcq_open(LENT(&state), classes, entries));
    CHECK_FLAG(gomxeli_mcq_is_empty(LENT(&state), classes - 1), 1);
    CHECK_REFUSED(gomxeli_mcq_is_empty(LENT(&state), classes), GOMXELI_SIZE);
    CHECK_REFUSED(gomxeli_mcq_is_front(LENT(&state), entries), GOMXELI_SIZE);
    if (entries > 0)
        CHECK_NONE(gomxeli_mcq_is_front(LENT(&state), entries - 1));
}

/*
 * Refusals 13 and 1 at opening. The table has 1 before 13; but where the sizes are
 * not allowed no length is theirs, and document 01 gives 1 only where they are. So
 * 13 it is, whatever the length.
 */
static void test_open_not_allowed(uint32_t classes, uint32_t entries)
{
    static struct state state;
    const uint32_t n[MOST_NUMBERS] = {classes, entries};
    const size_t wrapped = 2 + 2 * (size_t)(classes % 256 + entries % 256);
    const size_t lengths[] = {0, 1, 2, 4, 66, 450, 514, 516, wrapped};
    CHECK(gomxeli_mcq_length(classes, entries) == 0);
    for (unsigned i = 0; i < sizeof lengths / sizeof lengths[0]; i++) {
        state.len = lengths[i];
        CHECK(refuses(mcq_open, &state, n, GOMXELI_SIZE));
    }
}

static void test_open_sizes(void)
{
    static const uint32_t classes[] = {0, 1, 2, 31, 32, 33, 255, 256, 257, 65537, UINT32_MAX};
    static const uint32_t entries[] = {0, 1, 2, 223, 224, 225, 255, 256, 65536, UINT32_MAX};
    for (unsigned i = 0; i < sizeof classes / sizeof classes[0]; i++) {
        for (unsigned j = 0; j < sizeof entries / sizeof entries[0]; j++) {
            if (allowed(classes[i], entries[j]))
                test_open_allowed(classes[i], entries[j]);
            else
                test_open_not_allowed(classes[i], entries[j]);
        }
    }
    CHECK(GOMXELI_MCQ_LENGTH(1, 0) == 4);
    CHECK(GOMXELI_MCQ_LENGTH(GOMXELI_MCQ_CLASSES_MAX, GOMXELI_MCQ_ENTRIES_MAX) == 514);
}

/* ------------------------------------------------------------------------ */
/* The calls                                                                */
/* ------------------------------------------------------------------------ */

static void test_calls(void)
{
    static uint8_t state[GOMXELI_MCQ_LENGTH(2, 3)];
    const size_t len = sizeof state;
    CHECK_DONE(gomxeli_mcq_open(state, len, 2, 3));
    CHECK_NONE(gomxeli_mcq_front(state, len, 0));
    CHECK_NONE(gomxeli_mcq_back(state, len, 1));

    CHECK_DONE(gomxeli_mcq_move_back(state, len, 1, 2));
    CHECK_DONE(gomxeli_mcq_move_back(state, len, 1, 0));
    CHECK_DONE(gomxeli_mcq_move_front(state, len, 1, 1)); /* class 1: 1, 2, 0 */
    CHECK_FIRST(gomxeli_mcq_front(state, len, 1), 1);
    CHECK_FIRST(gomxeli_mcq_back(state, len, 1), 0);
    CHECK_FLAG(gomxeli_mcq_is_empty(state, len, 0), 1);
    CHECK_FLAG(gomxeli_mcq_is_empty(state, len, 1), 0);
    CHECK_FIRST(gomxeli_mcq_is_front(state, len, 1), 1);
    CHECK_NONE(gomxeli_mcq_is_front(state, len, 2));
    CHECK_FIRST(gomxeli_mcq_is_back(state, len, 0), 1);
    CHECK_NONE(gomxeli_mcq_is_back(state, len, 2));

    CHECK_DONE(gomxeli_mcq_remove(state, len, 1)); /* class 1: 2, 0 */
    CHECK_DONE(gomxeli_mcq_remove(state, len, 1)); /* in no class: nothing */
    CHECK_FIRST(gomxeli_mcq_is_front(state, len, 2), 1);
    CHECK_NONE(gomxeli_mcq_is_front(state, len, 1));
    CHECK_NONE(gomxeli_mcq_is_back(state, len, 1));

    CHECK_DONE(gomxeli_mcq_move_front(state, len, 0, 0)); /* class 0: 0, class 1: 2 */
    CHECK_FIRST(gomxeli_mcq_front(state, len, 0), 0);
    CHECK_FIRST(gomxeli_mcq_back(state, len, 0), 0);
    CHECK_FIRST(gomxeli_mcq_front(state, len, 1), 2);
    CHECK_FIRST(gomxeli_mcq_is_back(state, len, 0), 0);
}

/* The very bytes that opening and moves leave. */
static void test_bytes(void)
{
    static const uint8_t opened[] = {2, 3, 0, 0, 1, 1, 2, 2, 3, 3, 4, 4};
    static const uint8_t moved[] = {2, 3, 0, 0, 4, 2, 1, 4, 3, 3, 2, 1}; /* class 1: 2, 0 */
    static uint8_t state[GOMXELI_MCQ_LENGTH(2, 3)];
    const size_t len = sizeof state;
    memset(state, 0xa5, len);
    CHECK_DONE(gomxeli_mcq_open(state, len, 2, 3));
    CHECK(sizeof opened == len && memcmp(state, opened, len) == 0);
    CHECK_DONE(gomxeli_mcq_move_back(state, len, 1, 0));
    CHECK_DONE(gomxeli_mcq_move_front(state, len, 1, 2));
    CHECK(sizeof moved == len && memcmp(state, moved, len) == 0);
    CHECK_DONE(gomxeli_mcq_remove(state, len, 0));
    CHECK_DONE(gomxeli_mcq_remove(state, len, 2));
    CHECK(memcmp(state, opened, len) == 0);
}

/* Bytes as opening would leave them at sizes that are not allowed: not whole. */
static void test_states_past_limits(void)
{
    static const uint8_t sizes[][2] = {{0, 0}, {0, 1}, {33, 0}, {33, 223}, {1, 225}, {31, 225}};
    static struct state state;
    const uint32_t n[MOST_NUMBERS] = {0, 0};
    for (unsigned i = 0; i < sizeof sizes / sizeof sizes[0]; i++) {
        unsigned nodes = sizes[i][0] + (unsigned)sizes[i][1];
        state.len = 2 + 2 * (size_t)nodes;
        memcpy(state.byte, sizes[i], 2);
        for (unsigned node = 0; node < nodes; node++)
            memset(state.byte + 2 + 2 * node, (int)node, 2);
        CHECK(refuses(mcq_is_empty, &state, n, GOMXELI_NOT_WHOLE));
        CHECK(refuses(mcq_remove, &state, n, GOMXELI_NOT_WHOLE));
    }
}

/* An entry that is moved to where it stands, and within its own class. */
static void test_moves_in_place(void)
{
    static uint8_t state[GOMXELI_MCQ_LENGTH(1, 3)];
    const size_t len = sizeof state;
    CHECK_DONE(gomxeli_mcq_open(state, len, 1, 3));
    CHECK_DONE(gomxeli_mcq_move_front(state, len, 0, 1));
    CHECK_DONE(gomxeli_mcq_move_front(state, len, 0, 1));
    CHECK_FIRST(gomxeli_mcq_front(state, len, 0), 1);
    CHECK_FIRST(gomxeli_mcq_back(state, len, 0), 1);
    CHECK_DONE(gomxeli_mcq_move_back(state, len, 0, 2));
    CHECK_DONE(gomxeli_mcq_move_back(state, len, 0, 1)); /* 2, 1 */
    CHECK_FIRST(gomxeli_mcq_front(state, len, 0), 2);
    CHECK_FIRST(gomxeli_mcq_back(state, len, 0), 1);
}

/* ------------------------------------------------------------------------ */
/* Doubly wrong calls                                                       */
/* ------------------------------------------------------------------------ */

static void no_classes(struct state *state)
{
    state->byte[0] = 0;
}

static void many_classes(struct state *state)
{
    state->byte[0] = 33;
}

static void many_entries(struct state *state)
{
    state->byte[1] = 225;
}

/* A link to the node after the last. */
static void link_out(struct state *state)
{
    state->byte[2] = (uint8_t)(state->byte[0] + state->byte[1]);
}

/* The first class's next is its second entry, whose prev is another's. */
static void open_cycle(struct state *state)
{
    state->byte[2] = (uint8_t)(state->byte[0] + 1);
}

static void link_nodes(struct state *state, unsigned node, unsigned next)
{
    state->byte[2 + 2 * node] = (uint8_t)next;
    state->byte[2 + 2 * next + 1] = (uint8_t)node;
}

/* Class 0, entry 0, class 1 and entry 1 on one cycle. */
static void join_classes(struct state *state)
{
    link_nodes(state, 0, 2);
    link_nodes(state, 2, 1);
    link_nodes(state, 1, 3);
    link_nodes(state, 3, 0);
}

/* The last two entries on a cycle of their own. */
static void loose_cycle(struct state *state)
{
    unsigned nodes = (unsigned)(state->byte[0] + state->byte[1]);
    link_nodes(state, nodes - 2, nodes - 1);
    link_nodes(state, nodes - 1, nodes - 2);
}

static const struct breaking breakings[] = {
    {"one byte short", cut_last},
    {"one byte long", add_byte},
    {"empty", cut_all},
    {"no classes", no_classes},
    {"33 classes", many_classes},
    {"225 entries", many_entries},
    {"a link to no node", link_out},
    {"a cycle not closed", open_cycle},
    {"two classes on a cycle", join_classes},
    {"entries on a cycle without class", loose_cycle},
    {NULL, NULL},
};

/*
 * All pairs: 1 with 13. A list call has no other refusal but at opening, for which
 * see test_open_not_allowed.
 */
static const struct pair pairs[] = {
    {"front: class past the size", mcq_front, {0}, {UINT32_MAX}, GOMXELI_SIZE},
    {"back: class past the size", mcq_back, {0}, {2}, GOMXELI_SIZE},
    {"is_empty: class past the size", mcq_is_empty, {1}, {256}, GOMXELI_SIZE},
    {"is_front: entry past the size", mcq_is_front, {3}, {UINT32_MAX}, GOMXELI_SIZE},
    {"is_back: entry past the size", mcq_is_back, {0}, {65536}, GOMXELI_SIZE},
    {"remove: entry past the size", mcq_remove, {0}, {256}, GOMXELI_SIZE},
    {"move_front: class past the size", mcq_move_front, {0, 3}, {2, 3}, GOMXELI_SIZE},
    {"move_front: entry past the size", mcq_move_front, {0, 3}, {0, 4}, GOMXELI_SIZE},
    {"move_front: both past the size", mcq_move_front, {1, 0}, {UINT32_MAX, 4}, GOMXELI_SIZE},
    {"move_back: class past the size", mcq_move_back, {1, 2}, {2, 2}, GOMXELI_SIZE},
    {"move_back: entry past the size", mcq_move_back, {1, 2}, {1, 4}, GOMXELI_SIZE},
    {"move_back: both past the size", mcq_move_back, {0, 1}, {256, 65536}, GOMXELI_SIZE},
    {NULL, NULL, {0}, {0}, 0},
};

/* Class 0: entries 0, 1. Class 1 empty. Entries 2 and 3 in no class. */
static void test_pairs(void)
{
    static struct state whole;
    whole.len = GOMXELI_MCQ_LENGTH(2, 4);
    CHECK_DONE(gomxeli_mcq_open(LENT(&whole), 2, 4));
    CHECK_DONE(gomxeli_mcq_move_back(LENT(&whole), 0, 0));
    CHECK_DONE(gomxeli_mcq_move_back(LENT(&whole), 0, 1));
    check_pairs(pairs, &whole, breakings);
}

/* 13 with 1 at opening: 13. */
static void test_open_pairs(void)
{
    static const struct pair open_pairs[] = {
        {"open: no classes", mcq_open, {2, 4}, {0, 4}, GOMXELI_SIZE},
        {"open: 33 classes", mcq_open, {2, 4}, {33, 4}, GOMXELI_SIZE},
        {"open: 225 entries", mcq_open, {2, 4}, {2, 225}, GOMXELI_SIZE},
        {"open: both", mcq_open, {2, 4}, {UINT32_MAX, UINT32_MAX}, GOMXELI_SIZE},
    };
    static struct state right, wrong;
    right.len = GOMXELI_MCQ_LENGTH(2, 4);
    wrong.len = right.len + 1;
    for (unsigned i = 0; i < sizeof open_pairs / sizeof open_pairs[0]; i++)
        check_pair(&open_pairs[i], "wrong length", &right, &wrong, GOMXELI_NOT_WHOLE, GOMXELI_SIZE);
}

void test_mcq(void)
{
    test_open_sizes();
    test_calls();
    test_bytes();
    test_states_past_limits();
    test_moves_in_place();
    test_pairs();
    test_open_pairs();
}
