/* Loop-back message reception. */
#include <string.h>

#define KIND lb
#include "c_test_steps.h"
#include "c_test_tree.h"
#include "model_lb.h"
#include "random.h"
#include "state_lb.h"

static const struct modelled modelled[] = {
    {"lb_register", lb_register, model_lb_register, {ENTRY, SUBJECT}, 0},
    {"lb_unregister", lb_unregister, model_lb_unregister, {ENTRY}, 0},
    {"lb_hub_push_start", lb_hub_push_start, model_lb_hub_push_start, {SUBJECT}, 0},
    {"lb_hub_push_next", lb_hub_push_next, model_lb_hub_push_next, {NO_NUMBER}, 0},
    NO_MODELLED,
};

static const uint32_t spans[] = {1, 3, 128, 8192, 0};

static const struct modelled_kind kind = {389, lb_open, modelled, &lb_model, 8191, spans, false};

/* ------------------------------------------------------------------------ */
/* Cases                                                                    */
/* ------------------------------------------------------------------------ */

static const struct run cases[] = {
    {"document 01: two subjects, two frames",
     {OPEN(0), R(0, 100, 0), R(1, 200, 0), START(100, 1), NAMES(0, 1), NAMES(1, 0), NAMES_NONE,
      START(150, 0), NAMES_NONE, END}},
    {"a fresh state has no walk", {OPEN(0), NAMES_NONE, START(0, 0), START(8191, 0), END}},
    {"equals are named in the order of registering",
     {OPEN(0), R(5, 100, 0), R(3, 100, 0), R(9, 100, 0), R(4, 100, 0), START(100, 1), NAMES(5, 1),
      NAMES(3, 1), NAMES(9, 1), NAMES(4, 0), NAMES_NONE, END}},
    {"others come by subject, registered in any order",
     {OPEN(0), R(0, 300, 0), R(1, 100, 0), R(2, 200, 0), R(3, 100, 0), R(4, 300, 0), START(100, 1),
      NAMES(1, 1), NAMES(3, 1), NAMES(2, 1), NAMES(0, 1), NAMES(4, 0), NAMES_NONE, END}},
    {"a walk starts at its subject and not before",
     {OPEN(0), R(0, 100, 0), R(1, 200, 0), R(2, 200, 0), R(3, 300, 0), START(200, 1), NAMES(1, 1),
      NAMES(2, 1), NAMES(3, 0), NAMES_NONE, END}},
    {"a start on a subject without entry ends the walk",
     {OPEN(0), R(0, 100, 0), R(1, 100, 0), START(100, 1), NAMES(0, 1), START(99, 0), NAMES_NONE,
      START(100, 1), START(101, 0), NAMES_NONE, END}},
    {"a start begins anew",
     {OPEN(0), R(0, 100, 0), R(1, 200, 0), START(100, 1), NAMES(0, 1), START(100, 1), NAMES(0, 1),
      START(200, 1), NAMES(1, 0), END}},
    {"a removal moves the walk on, to an equal",
     {OPEN(0), R(0, 100, 0), R(1, 100, 0), R(2, 100, 0), START(100, 1), NAMES(0, 1), U(1, 0),
      NAMES(2, 0), NAMES_NONE, END}},
    {"a removal moves the walk on, to another subject",
     {OPEN(0), R(0, 100, 0), R(1, 200, 0), R(2, 300, 0), START(100, 1), U(0, 0), NAMES(1, 1),
      U(2, 0), NAMES_NONE, END}},
    {"removals one after the other move the walk to the end",
     {OPEN(0), R(0, 100, 0), R(1, 200, 0), R(2, 300, 0), START(100, 1), U(0, 0), U(1, 0),
      NAMES(2, 0), START(300, 1), U(2, 0), NAMES_NONE, END}},
    {"a removal of the last ends the walk",
     {OPEN(0), R(0, 100, 0), R(1, 200, 0), START(200, 1), U(1, 0), NAMES_NONE, START(100, 1),
      NAMES(0, 0), END}},
    {"a walk stays where another entry leaves",
     {OPEN(0), R(0, 100, 0), R(1, 100, 0), R(2, 200, 0), R(3, 300, 0), START(100, 1), NAMES(0, 1),
      U(0, 0), U(2, 0), NAMES(1, 1), NAMES(3, 0), NAMES_NONE, END}},
    {"a walk stays where an entry comes, and meets those that come behind it",
     {OPEN(0), R(0, 100, 0), R(1, 200, 0), START(100, 1), R(2, 50, 0), R(3, 150, 0), R(4, 100, 0),
      NAMES(0, 1), NAMES(4, 1), NAMES(3, 1), R(5, 300, 0), NAMES(1, 1), NAMES(5, 0), NAMES_NONE,
      END}},
    {"a walk at none stays there where an entry comes", {OPEN(0), R(0, 0, 0), NAMES_NONE, END}},
    {"an entry comes again, behind its equals",
     {OPEN(0), R(0, 100, 0), R(1, 100, 0), U(0, 0), R(0, 100, 0), START(100, 1), NAMES(1, 1),
      NAMES(0, 0), U(0, 0), U_REFUSED(0, GOMXELI_NOT_REGISTERED), R(0, 5, 0), START(5, 1),
      NAMES(0, 1), NAMES(1, 0), END}},
    {"limits of subject and entry",
     {OPEN(0), R(0, 8191, 0), R_REFUSED(1, 8192, GOMXELI_RANGE), R(127, 8191, 0), R(1, 0, 0),
      R_REFUSED(128, 8191, GOMXELI_ENTRY_RANGE), START_REFUSED(8192, GOMXELI_RANGE),
      U_REFUSED(128, GOMXELI_ENTRY_RANGE), START(8191, 1), NAMES(0, 1), NAMES(127, 0), START(0, 1),
      NAMES(1, 1), U(127, 0), NAMES(0, 0), END}},
    {"refused calls leave the walk",
     {OPEN(0), R(0, 100, 0), R(1, 200, 0), START(200, 1), START_REFUSED(8192, GOMXELI_RANGE),
      U_REFUSED(2, GOMXELI_NOT_REGISTERED), R_REFUSED(1, 5, GOMXELI_REGISTERED), NAMES(1, 0), END}},
    {"an entry on one subject is refused on any",
     {OPEN(0), R(0, 100, 0), R_REFUSED(0, 100, GOMXELI_REGISTERED),
      R_REFUSED(0, 101, GOMXELI_REGISTERED), U_REFUSED(1, GOMXELI_NOT_REGISTERED), END}},
    {"numbers past their types",
     {OPEN(0), R(5, 5, 0), R_REFUSED(256, 1, GOMXELI_ENTRY_RANGE),
      R_REFUSED(1, 65536, GOMXELI_RANGE), R_REFUSED(1, 65541, GOMXELI_RANGE),
      R_REFUSED(UINT32_MAX, UINT32_MAX, GOMXELI_ENTRY_RANGE), U_REFUSED(261, GOMXELI_ENTRY_RANGE),
      U_REFUSED(UINT32_MAX, GOMXELI_ENTRY_RANGE), START_REFUSED(65541, GOMXELI_RANGE),
      START_REFUSED(UINT32_MAX, GOMXELI_RANGE), END}},
};

/* ------------------------------------------------------------------------ */
/* The bytes                                                                */
/* ------------------------------------------------------------------------ */

static void lay_opened(uint8_t *bytes)
{
    memset(bytes, 0, GOMXELI_LB_LENGTH);
    bytes[385] = 255;
}

static void test_open(void)
{
    uint8_t opened[GOMXELI_LB_LENGTH];
    CHECK(GOMXELI_LB_LENGTH == 389);
    CHECK(GOMXELI_LB_ENTRY_MAX == 127);
    lay_opened(opened);
    check_opening(&kind, opened);
}

/* The very bytes that the calls leave. */
static void test_bytes(void)
{
    static uint8_t state[GOMXELI_LB_LENGTH], expected[GOMXELI_LB_LENGTH];
    const size_t len = sizeof state;
    lay_opened(expected);
    CHECK_DONE(gomxeli_lb_open(state, len));

    CHECK_DONE(gomxeli_lb_register(state, len, 5, 8191));
    CHECK_DONE(gomxeli_lb_register(state, len, 3, 300));
    CHECK_DONE(gomxeli_lb_register(state, len, 127, 300));
    expected[0] = 3;
    lay_place(expected, 0, 0, 3, 300);
    lay_place(expected, 0, 1, 127, 300);
    lay_place(expected, 0, 2, 5, 8191);
    CHECK(memcmp(state, expected, len) == 0);

    CHECK_FLAG(gomxeli_lb_hub_push_start(state, len, 300), 1);
    expected[385] = 3;
    CHECK(memcmp(state, expected, len) == 0);
    CHECK_PARTS(gomxeli_lb_hub_push_next(state, len), 0, 1, 3, 1);
    expected[385] = 127;
    CHECK(memcmp(state, expected, len) == 0);

    /* 127 leaves: the walk goes on to 5; the place that the others gave up is 255. */
    CHECK_DONE(gomxeli_lb_unregister(state, len, 127));
    expected[0] = 2;
    lay_place(expected, 0, 1, 5, 8191);
    lay_place(expected, 0, 2, 255, 65535);
    expected[385] = 5;
    CHECK(memcmp(state, expected, len) == 0);

    CHECK_PARTS(gomxeli_lb_hub_push_next(state, len), 0, 1, 5, 0);
    expected[385] = 255;
    CHECK(memcmp(state, expected, len) == 0);

    CHECK_DONE(gomxeli_lb_unregister(state, len, 3));
    CHECK_DONE(gomxeli_lb_unregister(state, len, 5));
    expected[0] = 0;
    lay_place(expected, 0, 0, 255, 65535);
    lay_place(expected, 0, 1, 255, 65535);
    CHECK(memcmp(state, expected, len) == 0);
}

/* Places past the count and the bytes after the walk are neither tested nor changed. */
static void test_silent_bytes(void)
{
    static uint8_t state[GOMXELI_LB_LENGTH], expected[GOMXELI_LB_LENGTH];
    const size_t len = sizeof state;
    memset(state, 0x77, len);
    state[0] = 0;
    state[385] = 255;
    memcpy(expected, state, len);
    CHECK_DONE(gomxeli_lb_register(state, len, 0, 5));
    CHECK_DONE(gomxeli_lb_register(state, len, 1, 5));
    CHECK_FLAG(gomxeli_lb_hub_push_start(state, len, 5), 1);
    CHECK_PARTS(gomxeli_lb_hub_push_next(state, len), 0, 1, 0, 1);
    CHECK_DONE(gomxeli_lb_unregister(state, len, 0));
    CHECK_PARTS(gomxeli_lb_hub_push_next(state, len), 0, 1, 1, 0);
    expected[0] = 1;
    lay_place(expected, 0, 0, 1, 5);
    lay_place(expected, 0, 1, 255, 65535);
    CHECK(memcmp(state, expected, len) == 0);
}

/* Any byte from 128 on is a walk at none, and calls that leave it there keep it. */
static void test_walk_byte(unsigned walk)
{
    static uint8_t state[GOMXELI_LB_LENGTH];
    const size_t len = sizeof state;
    lay_opened(state);
    state[385] = (uint8_t)walk;
    CHECK_NONE(gomxeli_lb_hub_push_next(state, len));
    CHECK_FLAG(gomxeli_lb_hub_push_start(state, len, 100), 0);
    CHECK_DONE(gomxeli_lb_register(state, len, 0, 100));
    CHECK_DONE(gomxeli_lb_register(state, len, 1, 100));
    CHECK_NONE(gomxeli_lb_hub_push_next(state, len));
    CHECK_FLAG(gomxeli_lb_hub_push_start(state, len, 99), 0);
    CHECK_DONE(gomxeli_lb_unregister(state, len, 0));
    CHECK_DONE(gomxeli_lb_unregister(state, len, 1));
    CHECK_REFUSED(gomxeli_lb_unregister(state, len, 1), GOMXELI_NOT_REGISTERED);
    CHECK(state[385] == walk);

    /* A walk that ends is 255: by a step, by a start, by a removal. */
    CHECK_DONE(gomxeli_lb_register(state, len, 0, 100));
    CHECK_FLAG(gomxeli_lb_hub_push_start(state, len, 100), 1);
    CHECK(state[385] == 0);
    CHECK_PARTS(gomxeli_lb_hub_push_next(state, len), 0, 1, 0, 0);
    CHECK(state[385] == 255);
    CHECK_FLAG(gomxeli_lb_hub_push_start(state, len, 100), 1);
    CHECK_FLAG(gomxeli_lb_hub_push_start(state, len, 101), 0);
    CHECK(state[385] == 255);
    CHECK_FLAG(gomxeli_lb_hub_push_start(state, len, 100), 1);
    CHECK_DONE(gomxeli_lb_unregister(state, len, 0));
    CHECK(state[385] == 255);
}

static void test_walk_bytes(void)
{
    for (unsigned walk = 128; walk <= UINT8_MAX; walk++)
        test_walk_byte(walk);
}

/* ------------------------------------------------------------------------ */
/* All entries                                                              */
/* ------------------------------------------------------------------------ */

/* All 128, on one subject and on as many: a walk names all, and then none. */
static void test_full(unsigned stride)
{
    static uint8_t state[GOMXELI_LB_LENGTH];
    const size_t len = sizeof state;
    CHECK_DONE(gomxeli_lb_open(state, len));
    for (unsigned e = 0; e < 128; e++)
        CHECK_DONE(gomxeli_lb_register(state, len, e, 100 + stride * e));
    for (unsigned e = 0; e < 128; e++)
        CHECK_REFUSED(gomxeli_lb_register(state, len, e, 100), GOMXELI_REGISTERED);
    CHECK_FLAG(gomxeli_lb_hub_push_start(state, len, 100), 1);
    for (unsigned e = 0; e < 128; e++)
        CHECK_PARTS(gomxeli_lb_hub_push_next(state, len), 0, 1, e, e < 127);
    CHECK_NONE(gomxeli_lb_hub_push_next(state, len));
    CHECK_FLAG(gomxeli_lb_hub_push_start(state, len, 100), 1);
    for (unsigned e = 0; e < 128; e++) {
        CHECK(state[385] == e);
        CHECK_DONE(gomxeli_lb_unregister(state, len, e));
    }
    CHECK_NONE(gomxeli_lb_hub_push_next(state, len));
    for (unsigned at = 1; at < 385; at++)
        CHECK(state[at] == 255);
}

/* Each subject, on its own and beside its neighbours. */
static void test_subjects(void)
{
    static uint8_t state[GOMXELI_LB_LENGTH];
    const size_t len = sizeof state;
    CHECK_DONE(gomxeli_lb_open(state, len));
    for (unsigned s = 0; s <= 8191; s++) {
        CHECK_DONE(gomxeli_lb_register(state, len, s % 128, s));
        CHECK_FLAG(gomxeli_lb_hub_push_start(state, len, s), 1);
        CHECK_FLAG(gomxeli_lb_hub_push_start(state, len, s == 0 ? 8191 : s - 1), 0);
        CHECK_FLAG(gomxeli_lb_hub_push_start(state, len, s == 8191 ? 0 : s + 1), 0);
        CHECK_DONE(gomxeli_lb_unregister(state, len, s % 128));
    }
}

/* The header's example: a frame of this node comes back. */
static void test_example(void)
{
    static uint8_t lb[GOMXELI_LB_LENGTH];
    unsigned delivered = 0;
    gomxeli_lb_open(lb, sizeof lb);
    gomxeli_lb_register(lb, sizeof lb, 0, 100);
    gomxeli_lb_register(lb, sizeof lb, 1, 200);
    gomxeli_answer a = gomxeli_lb_hub_push_start(lb, sizeof lb, 100);
    for (bool more = gomxeli_what(a) == 1; more; more = gomxeli_second(a) == 1) {
        a = gomxeli_lb_hub_push_next(lb, sizeof lb);
        CHECK(gomxeli_first(a) == delivered++);
    }
    CHECK(delivered == 2);
}

/* ------------------------------------------------------------------------ */
/* Refusals                                                                 */
/* ------------------------------------------------------------------------ */

static void subject_8192(struct state *state)
{
    lay_place(state->byte, 0, 3, 127, 8192);
}

static void walk_astray(struct state *state)
{
    state->byte[385] = 99;
}

static const struct breaking breakings[] = {
    {"one byte short", cut_last},
    {"one byte long", add_byte},
    {"empty", cut_all},
    {"129 entries", count_129},
    {"entry 128", entry_128},
    {"an entry twice", entry_twice},
    {"subjects out of order", out_of_order},
    {"subject 8192", subject_8192},
    {"a walk at an unregistered entry", walk_astray},
    {NULL, NULL},
};

/* 1 with 2, 3, 5 and 8. */
static const struct pair pairs[] = {
    {"register: entry 128", lb_register, {9, 100}, {128, 100}, GOMXELI_ENTRY_RANGE},
    {"register: the largest entry", lb_register, {9, 100}, {UINT32_MAX, 0}, GOMXELI_ENTRY_RANGE},
    {"register: subject 8192", lb_register, {9, 8191}, {9, 8192}, GOMXELI_RANGE},
    {"register: the largest subject", lb_register, {9, 0}, {9, UINT32_MAX}, GOMXELI_RANGE},
    {"register: a registered entry", lb_register, {9, 100}, {0, 100}, GOMXELI_REGISTERED},
    {"unregister: entry 128", lb_unregister, {0}, {128}, GOMXELI_ENTRY_RANGE},
    {"unregister: entry not registered", lb_unregister, {1}, {9}, GOMXELI_NOT_REGISTERED},
    {"start: subject 8192", lb_hub_push_start, {100}, {8192}, GOMXELI_RANGE},
    {"start: the largest subject", lb_hub_push_start, {8191}, {UINT32_MAX}, GOMXELI_RANGE},
    {NULL, NULL, {0}, {0}, 0},
};

/* 2 never meets 5: an entry above 127 is not registered. */
static const struct meeting meetings[] = {
    {"2 with 3", lb_register, {128, 8192}, GOMXELI_ENTRY_RANGE, {9, 8192}, GOMXELI_RANGE},
    {"3 with 5", lb_register, {0, 8192}, GOMXELI_RANGE, {0, 100}, GOMXELI_REGISTERED},
    {"2 with 8", lb_unregister, {128}, GOMXELI_ENTRY_RANGE, {9}, GOMXELI_NOT_REGISTERED},
    {NULL, NULL, {0}, 0, {0}, 0},
};

static const struct tried tried[] = {
    {lb_open, {0}},           {lb_register, {9, 100}}, {lb_unregister, {0}},
    {lb_hub_push_start, {1}}, {lb_hub_push_next, {0}}, {NULL, {0}},
};

/* 0 and 1 on 100, 2 on 200, 127 on 300; the walk points at 2. */
static void test_refusals(void)
{
    static struct state whole;
    whole.len = GOMXELI_LB_LENGTH;
    CHECK_DONE(gomxeli_lb_open(LENT(&whole)));
    CHECK_DONE(gomxeli_lb_register(LENT(&whole), 0, 100));
    CHECK_DONE(gomxeli_lb_register(LENT(&whole), 1, 100));
    CHECK_DONE(gomxeli_lb_register(LENT(&whole), 2, 200));
    CHECK_DONE(gomxeli_lb_register(LENT(&whole), 127, 300));
    CHECK_FLAG(gomxeli_lb_hub_push_start(LENT(&whole), 200), 1);
    check_pairs(pairs, &whole, breakings);
    check_meetings(meetings, &whole);
    check_lengths(&whole, tried, GOMXELI_NOT_WHOLE);
    check_numbers(&kind, &whole);
}

/* ------------------------------------------------------------------------ */
/* One byte changed                                                         */
/* ------------------------------------------------------------------------ */

/* With a walk in the middle of the entries, or with one at none, and silent bytes at random. */
static void test_changes(unsigned count, uint32_t span, bool walks)
{
    static struct state whole;
    fill(&kind, &whole, count, span);
    fill_silent(&whole, count);
    random_bytes(whole.byte + LB_SILENT_AT, LB_SILENT);
    whole.byte[LB_WALK_AT] = walks ? whole.byte[PLACES_AT + PLACE_LENGTH * (count / 2)] : 200;
    check_single_bytes(&kind, &whole, span);
}

void test_lb(void)
{
    seed_random(1);
    test_open();
    check_runs(cases, sizeof cases / sizeof cases[0], GOMXELI_LB_LENGTH);
    test_bytes();
    test_silent_bytes();
    test_walk_bytes();
    test_full(0);
    test_full(1);
    test_full(63);
    test_subjects();
    test_example();
    test_refusals();
    test_changes(0, 1, false);
    test_changes(1, 1, true);
    test_changes(6, 3, true);
    test_changes(6, 8192, false);
    test_changes(127, 8192, true);
    test_changes(128, 40, true);
    check_sequences(&kind);
}
