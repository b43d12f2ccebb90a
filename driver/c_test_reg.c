/* Regular message reception, call by call. */
#include <string.h>

#define KIND reg
#include "c_test_steps.h"
#include "c_test_tree.h"
#include "state_reg.h"

/* ------------------------------------------------------------------------ */
/* Steps                                                                    */
/* ------------------------------------------------------------------------ */

/* Not a call: the slot counter, as the first field. */
static gomxeli_answer read_slots(uint8_t *state, size_t len, const uint32_t *n)
{
    (void)len;
    (void)n;
    return (gomxeli_answer)(state[SLOTS_AT] + 256u * state[SLOTS_AT + 1]) << 16;
}

/* Not a call: polls until there is nothing, or too often. */
static gomxeli_answer poll_all(uint8_t *state, size_t len, const uint32_t *n)
{
    gomxeli_answer answer = reg_poll_pop(state, len, n);
    for (unsigned i = 0; i < REGISTRY_ENTRIES && gomxeli_what(answer) != 0; i++)
        answer = reg_poll_pop(state, len, n);
    return answer;
}

#define ADD(subject) {reg_poll_pop, {0}, 0, 1, subject, 0}
#define CUT(first, last) {reg_poll_pop, {0}, 0, 2, first, last}
#define NOTHING {reg_poll_pop, {0}, 0, 0, 0, 0}
#define POLL_ALL {poll_all, {0}, 0, 0, 0, 0}
#define SLOTS(count) {read_slots, {0}, 0, 0, count, 0}

/* ------------------------------------------------------------------------ */
/* Document 01's cases                                                      */
/* ------------------------------------------------------------------------ */

static const struct run cases[] = {
    {"a fresh poll", {OPEN(3), NOTHING, END}},
    {"one subject, two entries, then one",
     {OPEN(3), R(0, 100, 1), R(1, 100, 0), ADD(100), NOTHING, U(0, 0), NOTHING, START(100, 1),
      NAMES(1, 0), END}},
    {"two removals, one update",
     {OPEN(3), R(0, 100, 1), R(1, 200, 1), R(2, 300, 1), ADD(100), ADD(200), ADD(300), NOTHING,
      SLOTS(0), U(1, 1), U(0, 0), CUT(0, 299), NOTHING, SLOTS(1), END}},
    {"the only subject removed",
     {OPEN(1), R(0, 300, 1), ADD(300), U(0, 1), CUT(0, 8191), NOTHING, END}},
    {"subject 0 removed before 1",
     {OPEN(2), R(0, 0, 1), R(1, 1, 1), ADD(0), ADD(1), U(0, 1), CUT(0, 0), NOTHING, END}},
    {"subject 8191 removed after 8190",
     {OPEN(2), R(0, 8190, 1), R(1, 8191, 1), ADD(8190), ADD(8191), U(1, 1), CUT(8191, 8191),
      NOTHING, END}},
    {"an unpolled removal gives no slot back",
     {OPEN(1), R(0, 100, 1), U(0, 0), R_REFUSED(1, 101, GOMXELI_NO_SUBJECT_SLOT), END}},
    {"a removal in the middle of a walk",
     {OPEN(1), R(0, 100, 1), R(1, 100, 0), R(2, 100, 0), POLL_ALL, START(100, 1), NAMES(0, 1),
      U(1, 0), NAMES(2, 0), NAMES_NONE, END}},
    {"limits of subject and entry",
     {OPEN(9), R(0, 8191, 1), R_REFUSED(1, 8192, GOMXELI_RANGE), R(127, 8191, 0),
      R_REFUSED(128, 8191, GOMXELI_ENTRY_RANGE), START_REFUSED(8192, GOMXELI_RANGE),
      U_REFUSED(128, GOMXELI_ENTRY_RANGE), ADD(8191), NOTHING, START(8191, 1), NAMES(0, 1),
      NAMES(127, 0), U(127, 0), U(0, 1), CUT(0, 8191), END}},
    {"the program's example",
     {OPEN(4), R(0, 100, 1), R(1, 100, 0), ADD(100), U(0, 1), CUT(0, 8191), ADD(100), NOTHING,
      END}},
};

/* ------------------------------------------------------------------------ */
/* More cases                                                               */
/* ------------------------------------------------------------------------ */

static const struct run more_cases[] = {
    {"the counter passes the opening slots",
     {OPEN(4), R(0, 100, 1), R(1, 100, 0), ADD(100), U(0, 1), CUT(0, 8191), ADD(100), U(1, 1),
      SLOTS(5), END}},
    {"the counter sinks for good",
     {OPEN(2), R(0, 100, 1), U(0, 0), SLOTS(1), R(0, 100, 1), SLOTS(0), END}},
    {"a marked head before a marked head gives no slot",
     {OPEN(9), R(0, 100, 1), R(1, 200, 1), R(2, 300, 1), R(3, 400, 1), POLL_ALL, U(0, 1), U(2, 1),
      SLOTS(7), U(1, 0), SLOTS(7), CUT(0, 399), NOTHING, END}},
    {"a mark goes to an entry of the same subject and to the back",
     {OPEN(9), R(0, 100, 1), R(1, 200, 1), R(2, 300, 1), R(3, 400, 1), POLL_ALL, R(4, 200, 0),
      U(0, 1), U(2, 1), SLOTS(7), U(1, 1), SLOTS(8), CUT(201, 399), CUT(0, 199), NOTHING, END}},
    {"a non-head leaves and its head keeps the mark",
     {OPEN(9), R(0, 100, 1), R(1, 200, 1), POLL_ALL, R(2, 200, 0), U(0, 1), SLOTS(8), U(2, 0),
      SLOTS(8), CUT(0, 199), NOTHING, START(200, 1), NAMES(1, 0), END}},
    {"an unmarked head leaves to its equal",
     {OPEN(2), R(0, 100, 1), POLL_ALL, R(1, 100, 0), U(0, 0), SLOTS(1), NOTHING, START(100, 1),
      NAMES(1, 0), END}},
    {"waiting is looked at before active",
     {OPEN(9), R(0, 100, 1), R(1, 100, 0), ADD(100), R(2, 100, 0), START(100, 1), NAMES(0, 0),
      NOTHING, START(100, 1), NAMES(0, 1), NAMES(1, 1), NAMES(2, 0), END}},
    {"walks see active entries alone",
     {OPEN(9), R(0, 100, 1), START(100, 0), NAMES_NONE, ADD(100), START(100, 1), START(99, 0),
      NAMES_NONE, START(101, 0), END}},
    {"a walk ends before the next head",
     {OPEN(9), R(0, 100, 1), R(1, 101, 1), POLL_ALL, START(100, 1), NAMES(0, 0), NAMES_NONE, END}},
    {"a walk whose head leaves moves to the next",
     {OPEN(9), R(0, 100, 1), R(1, 100, 0), POLL_ALL, START(100, 1), U(0, 0), NAMES(1, 0), END}},
    {"a walk whose last entry leaves ends",
     {OPEN(9), R(0, 100, 1), R(1, 101, 1), POLL_ALL, START(100, 1), U(0, 1), NAMES_NONE, END}},
    {"a walk stays where another entry leaves",
     {OPEN(9), R(0, 100, 1), R(1, 100, 0), R(2, 100, 0), POLL_ALL, START(100, 1), NAMES(0, 1),
      U(2, 0), U(0, 0), NAMES(1, 0), NAMES_NONE, END}},
    {"a poll passes over entries whose subject is active",
     {OPEN(9), R(0, 100, 1), R(1, 100, 0), R(2, 100, 0), R(3, 200, 1), ADD(100), ADD(200), NOTHING,
      START(100, 1), NAMES(0, 1), NAMES(1, 1), NAMES(2, 0), END}},
    {"clean-ups come before adds",
     {OPEN(9), R(0, 100, 1), R(1, 300, 1), POLL_ALL, R(2, 200, 1), U(0, 1), U(1, 1), SLOTS(8),
      CUT(0, 8191), ADD(200), NOTHING, END}},
    {"a mark and the last gap",
     {OPEN(9), R(0, 100, 1), R(1, 300, 1), R(2, 500, 1), POLL_ALL, U(0, 1), U(2, 1), CUT(0, 299),
      CUT(301, 8191), NOTHING, END}},
    {"no slots", {OPEN(0), R_REFUSED(0, 0, GOMXELI_NO_SUBJECT_SLOT), NOTHING, END}},
    {"twice registered, twice removed",
     {OPEN(9), R(5, 7, 1), R_REFUSED(5, 8, GOMXELI_REGISTERED), ADD(7),
      R_REFUSED(5, 7, GOMXELI_REGISTERED), U(5, 1), U_REFUSED(5, GOMXELI_NOT_REGISTERED), END}},
    {"the counter may not pass 65535: the entry stays",
     {OPEN(65535), R(0, 100, 1), R(1, 100, 0), ADD(100), U(0, 1), SLOTS(65535), CUT(0, 8191),
      ADD(100), U_REFUSED(1, GOMXELI_SLOTS_FULL), START(100, 1), NAMES(1, 0), SLOTS(65535),
      R_REFUSED(1, 5, GOMXELI_REGISTERED), NOTHING, R(2, 7, 1), U(1, 1), SLOTS(65535), END}},
    {"65535 slots hinder no removal that gives none back",
     {OPEN(65535), R(0, 100, 1), R(1, 100, 0), ADD(100), U(0, 1), CUT(0, 8191), ADD(100),
      R(2, 100, 0), U(1, 0), U_REFUSED(2, GOMXELI_SLOTS_FULL), SLOTS(65535), END}},
    {"numbers past their types",
     {OPEN(9), R_REFUSED(256, 1, GOMXELI_ENTRY_RANGE), R_REFUSED(1, 65536, GOMXELI_RANGE),
      R_REFUSED(UINT32_MAX, UINT32_MAX, GOMXELI_ENTRY_RANGE), U_REFUSED(65536, GOMXELI_ENTRY_RANGE),
      START_REFUSED(65536, GOMXELI_RANGE), START_REFUSED(UINT32_MAX, GOMXELI_RANGE), END}},
};

/* ------------------------------------------------------------------------ */
/* Opening                                                                  */
/* ------------------------------------------------------------------------ */

static void test_open(void)
{
    static const uint32_t allowed[] = {0, 1, 255, 256, 257, 65534, 65535};
    static const uint32_t past[] = {65536, 65537, 131072, 0x80000000u, UINT32_MAX};
    static struct state state;
    state.len = GOMXELI_REG_LENGTH;
    CHECK(GOMXELI_REG_LENGTH == 1036);
    for (unsigned i = 0; i < sizeof allowed / sizeof allowed[0]; i++) {
        CHECK_DONE(gomxeli_reg_open(LENT(&state), allowed[i]));
        CHECK(state.byte[SLOTS_AT] + 256u * state.byte[SLOTS_AT + 1] == allowed[i]);
    }
    for (unsigned i = 0; i < sizeof past / sizeof past[0]; i++)
        CHECK(refuses(reg_open, &state, &past[i], GOMXELI_RANGE));
}

/* ------------------------------------------------------------------------ */
/* The bytes                                                                */
/* ------------------------------------------------------------------------ */

/* An open registry's bytes: all 0 but for the queue, where each node is alone, and the ends. */
static void lay_opened(uint8_t *bytes, unsigned slots)
{
    memset(bytes, 0, GOMXELI_REG_LENGTH);
    bytes[QUEUES_AT] = 2;
    bytes[QUEUES_AT + 1] = 128;
    for (unsigned node = 0; node < 130; node++)
        memset(bytes + QUEUES_AT + 2 + 2 * node, (int)node, 2);
    bytes[SLOTS_AT] = (uint8_t)(slots % 256);
    bytes[SLOTS_AT + 1] = (uint8_t)(slots / 256);
    bytes[WALK_AT] = 255;
}

static void lay_link(uint8_t *bytes, unsigned node, unsigned next)
{
    bytes[QUEUES_AT + 2 + 2 * node] = (uint8_t)next;
    bytes[QUEUES_AT + 3 + 2 * next] = (uint8_t)node;
}

static bool same(const uint8_t *a, const uint8_t *b)
{
    return memcmp(a, b, GOMXELI_REG_LENGTH) == 0;
}

/* The very bytes that opening and the calls leave. */
static void test_bytes(void)
{
    static uint8_t state[GOMXELI_REG_LENGTH], expected[GOMXELI_REG_LENGTH];
    const size_t len = sizeof state;
    memset(state, 0xa5, len);
    CHECK_DONE(gomxeli_reg_open(state, len, 0x1234));
    lay_opened(expected, 0x1234);
    CHECK(same(state, expected));

    /* Two wait: 5 on 8191, then 3 on 300. */
    CHECK_FLAG(gomxeli_reg_register(state, len, 5, 8191), 1);
    CHECK_FLAG(gomxeli_reg_register(state, len, 3, 300), 1);
    expected[INACTIVE_AT] = 2;
    lay_place(expected, INACTIVE_AT, 0, 3, 300);
    lay_place(expected, INACTIVE_AT, 1, 5, 8191);
    lay_link(expected, 1, 7);
    lay_link(expected, 7, 5);
    lay_link(expected, 5, 1);
    expected[SLOTS_AT] = 0x32;
    CHECK(same(state, expected));

    /* 5 becomes active; the place that the others gave up is 255. */
    CHECK_PARTS(gomxeli_reg_poll_pop(state, len), 0, 1, 8191, 0);
    expected[ACTIVE_AT] = 1;
    lay_place(expected, ACTIVE_AT, 0, 5, 8191);
    expected[INACTIVE_AT] = 1;
    lay_place(expected, INACTIVE_AT, 1, 255, 65535);
    lay_link(expected, 1, 5);
    lay_link(expected, 7, 7);
    CHECK(same(state, expected));

    /* So does 3. A walk points at it. */
    CHECK_PARTS(gomxeli_reg_poll_pop(state, len), 0, 1, 300, 0);
    CHECK_FLAG(gomxeli_reg_hub_push_start(state, len, 300), 1);
    expected[ACTIVE_AT] = 2;
    lay_place(expected, ACTIVE_AT, 0, 3, 300);
    lay_place(expected, ACTIVE_AT, 1, 5, 8191);
    expected[INACTIVE_AT] = 0;
    lay_place(expected, INACTIVE_AT, 0, 255, 65535);
    lay_link(expected, 1, 1);
    lay_link(expected, 5, 5);
    expected[WALK_AT] = 3;
    CHECK(same(state, expected));

    /* 3 leaves: the walk ends, 5 is marked. */
    CHECK_FLAG(gomxeli_reg_unregister(state, len, 3), 1);
    expected[ACTIVE_AT] = 1;
    lay_place(expected, ACTIVE_AT, 0, 5, 8191);
    lay_place(expected, ACTIVE_AT, 1, 255, 65535);
    lay_link(expected, 0, 7);
    lay_link(expected, 7, 0);
    expected[SLOTS_AT] = 0x33;
    expected[WALK_AT] = 255;
    CHECK(same(state, expected));

    /* So does 5: the mark is withdrawn, the last-gap flag set. */
    CHECK_FLAG(gomxeli_reg_unregister(state, len, 5), 1);
    expected[ACTIVE_AT] = 0;
    lay_place(expected, ACTIVE_AT, 0, 255, 65535);
    lay_link(expected, 0, 0);
    lay_link(expected, 7, 7);
    expected[SLOTS_AT] = 0x34;
    expected[LAST_GAP_AT] = 1;
    CHECK(same(state, expected));

    CHECK_PARTS(gomxeli_reg_poll_pop(state, len), 0, 2, 0, 8191);
    expected[LAST_GAP_AT] = 0;
    CHECK(same(state, expected));
}

/*
 * Bytes that say nothing are neither tested nor changed: places past a tree's count,
 * another walk that points at none, another flag that is set.
 */
static void test_silent_bytes(void)
{
    static uint8_t state[GOMXELI_REG_LENGTH], expected[GOMXELI_REG_LENGTH];
    const size_t len = sizeof state;
    lay_opened(state, 9);
    memset(state + ACTIVE_AT + 1, 0x77, 3 * 128);
    memset(state + INACTIVE_AT + 1, 0x88, 3 * 128);
    state[LAST_GAP_AT] = 7;
    state[WALK_AT] = 128;
    memcpy(expected, state, len);

    CHECK_NONE(gomxeli_reg_hub_push_next(state, len));
    CHECK_FLAG(gomxeli_reg_hub_push_start(state, len, 5), 0);
    CHECK(same(state, expected));
    CHECK_FLAG(gomxeli_reg_register(state, len, 0, 5), 1);
    CHECK_FLAG(gomxeli_reg_unregister(state, len, 0), 0);
    lay_place(expected, INACTIVE_AT, 0, 255, 65535);
    expected[SLOTS_AT] = 8;
    CHECK(same(state, expected));

    /* A flag that is set again stays; one that is cleared is 0. */
    state[ACTIVE_AT] = 1;
    lay_place(state, ACTIVE_AT, 0, 0, 5);
    CHECK_FLAG(gomxeli_reg_unregister(state, len, 0), 1);
    CHECK(state[LAST_GAP_AT] == 7 && state[WALK_AT] == 128 && state[ACTIVE_AT + 4] == 0x77);
    CHECK_PARTS(gomxeli_reg_poll_pop(state, len), 0, 2, 0, 8191);
    CHECK(state[LAST_GAP_AT] == 0);
}

/* All 128 entries, on one subject and on as many. */
static void test_full(unsigned stride)
{
    static uint8_t state[GOMXELI_REG_LENGTH];
    const size_t len = sizeof state;
    CHECK_DONE(gomxeli_reg_open(state, len, 128));
    for (unsigned e = 0; e < 128; e++)
        CHECK_FLAG(gomxeli_reg_register(state, len, e, 100 + stride * e), stride > 0 || e == 0);
    CHECK_REFUSED(gomxeli_reg_register(state, len, 127, 100), GOMXELI_REGISTERED);
    for (unsigned i = 0; i < (stride > 0 ? 128 : 1); i++)
        CHECK_PARTS(gomxeli_reg_poll_pop(state, len), 0, 1, 100 + stride * i, 0);
    CHECK_NONE(gomxeli_reg_poll_pop(state, len));
    for (unsigned e = 0; e < 128; e++) {
        if (stride > 0 || e == 0)
            CHECK_FLAG(gomxeli_reg_hub_push_start(state, len, 100 + stride * e), 1);
        CHECK_PARTS(gomxeli_reg_hub_push_next(state, len), 0, 1, e, stride == 0 && e < 127);
    }
    CHECK_NONE(gomxeli_reg_hub_push_next(state, len));
    for (unsigned e = 0; e < 128; e++)
        CHECK(gomxeli_number(gomxeli_reg_unregister(state, len, e)) == GOMXELI_ACCEPTED);
    CHECK_PARTS(gomxeli_reg_poll_pop(state, len), 0, 2, 0, 8191);
    CHECK_NONE(gomxeli_reg_poll_pop(state, len));
}

void test_reg(void)
{
    test_open();
    check_runs(cases, sizeof cases / sizeof cases[0], GOMXELI_REG_LENGTH);
    check_runs(more_cases, sizeof more_cases / sizeof more_cases[0], GOMXELI_REG_LENGTH);
    test_bytes();
    test_silent_bytes();
    test_full(0);
    test_full(1);
    test_full(63);
}
