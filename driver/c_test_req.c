/* Requests. */
#include <string.h>

#define KIND req
#include "c_test_steps.h"
#include "c_test_tree.h"
#include "model_req.h"
#include "random.h"

static const struct modelled modelled[] = {
    {"req_register", req_register, model_req_register, {ENTRY, SUBJECT}, 0},
    {"req_unregister", req_unregister, model_req_unregister, {ENTRY}, 0},
    {"req_poll_push", req_poll_push, model_req_poll_push, {SUBJECT, LOOP_BACK}, 0},
    NO_MODELLED,
};

static const uint32_t spans[] = {128, 512, 0};

static const struct modelled_kind kind = {385, req_open, modelled, &req_model, 511, spans, false};

/* ------------------------------------------------------------------------ */
/* Cases                                                                    */
/* ------------------------------------------------------------------------ */

#define FOR(service, entry) {req_poll_push, {service, 0}, 0, 1, entry, 0}
#define FOR_NONE(service) {req_poll_push, {service, 0}, 0, 0, 0, 0}
#define BACK_FOR_NONE(service, loop_back) {req_poll_push, {service, loop_back}, 0, 0, 0, 0}
#define REFUSED_FOR(service, loop_back, number) \
    {req_poll_push, {service, loop_back}, REFUSES(number)}

static const struct run cases[] = {
    {"a fresh state serves nothing", {OPEN(0), FOR_NONE(0), FOR_NONE(511), END}},
    {"a frame is for the entry of its service",
     {OPEN(0), R(3, 430, 0), R(0, 100, 0), R(7, 500, 0), FOR(430, 3), FOR(100, 0), FOR(500, 7),
      FOR_NONE(429), FOR_NONE(431), FOR(430, 3), END}},
    {"a loop-back frame is for none",
     {OPEN(0), R(3, 430, 0), BACK_FOR_NONE(430, 1), BACK_FOR_NONE(430, 2), BACK_FOR_NONE(430, 128),
      BACK_FOR_NONE(430, 255), BACK_FOR_NONE(7, 1), FOR(430, 3), END}},
    {"no two share a service",
     {OPEN(0), R(3, 430, 0), R_REFUSED(4, 430, GOMXELI_OCCUPIED), FOR(430, 3), R(4, 431, 0),
      R_REFUSED(5, 431, GOMXELI_OCCUPIED), FOR(431, 4), END}},
    {"a service is free again after a removal",
     {OPEN(0), R(3, 430, 0), U(3, 0), FOR_NONE(430), R(4, 430, 0), FOR(430, 4), R(3, 429, 0),
      FOR(429, 3), FOR(430, 4), END}},
    {"an entry on one service is refused on any",
     {OPEN(0), R(3, 430, 0), R_REFUSED(3, 430, GOMXELI_REGISTERED),
      R_REFUSED(3, 431, GOMXELI_REGISTERED), U(3, 0), U_REFUSED(3, GOMXELI_NOT_REGISTERED),
      R(3, 431, 0), FOR(431, 3), END}},
    {"limits of service and entry",
     {OPEN(0), R(0, 511, 0), R_REFUSED(1, 512, GOMXELI_RANGE), R(127, 0, 0),
      R_REFUSED(128, 5, GOMXELI_ENTRY_RANGE), U_REFUSED(128, GOMXELI_ENTRY_RANGE), FOR(511, 0),
      FOR(0, 127), REFUSED_FOR(512, 0, GOMXELI_RANGE), REFUSED_FOR(512, 1, GOMXELI_RANGE),
      U(127, 0), FOR_NONE(0), END}},
    {"numbers past their types",
     {OPEN(0), R(5, 5, 0), R_REFUSED(256, 1, GOMXELI_ENTRY_RANGE),
      R_REFUSED(1, 65536, GOMXELI_RANGE), R_REFUSED(1, 517, GOMXELI_RANGE),
      R_REFUSED(UINT32_MAX, UINT32_MAX, GOMXELI_ENTRY_RANGE), U_REFUSED(261, GOMXELI_ENTRY_RANGE),
      U_REFUSED(UINT32_MAX, GOMXELI_ENTRY_RANGE), REFUSED_FOR(517, 0, GOMXELI_RANGE),
      REFUSED_FOR(65541, 0, GOMXELI_RANGE), REFUSED_FOR(UINT32_MAX, 0, GOMXELI_RANGE),
      REFUSED_FOR(UINT32_MAX, 255, GOMXELI_RANGE), FOR(5, 5), END}},
};

/* ------------------------------------------------------------------------ */
/* The bytes                                                                */
/* ------------------------------------------------------------------------ */

static void test_open(void)
{
    static const uint8_t opened[GOMXELI_REQ_LENGTH];
    CHECK(GOMXELI_REQ_LENGTH == 385);
    CHECK(GOMXELI_REQ_ENTRY_MAX == 127);
    check_opening(&kind, opened);
}

/* The very bytes that the calls leave, over places that say nothing. */
static void test_bytes(void)
{
    static uint8_t state[GOMXELI_REQ_LENGTH], expected[GOMXELI_REQ_LENGTH];
    const size_t len = sizeof state;
    memset(state, 0x77, len);
    state[0] = 0;
    memcpy(expected, state, len);

    CHECK_DONE(gomxeli_req_register(state, len, 5, 511));
    CHECK_DONE(gomxeli_req_register(state, len, 127, 0));
    CHECK_DONE(gomxeli_req_register(state, len, 3, 258));
    expected[0] = 3;
    lay_place(expected, 0, 0, 127, 0);
    lay_place(expected, 0, 1, 3, 258);
    lay_place(expected, 0, 2, 5, 511);
    CHECK(memcmp(state, expected, len) == 0);

    CHECK_FIRST(gomxeli_req_poll_push(state, len, 511, 0), 5);
    CHECK_NONE(gomxeli_req_poll_push(state, len, 511, 1));
    CHECK_NONE(gomxeli_req_poll_push(state, len, 510, 0));
    CHECK(memcmp(state, expected, len) == 0);

    /* The places that the others gave up are 255. */
    CHECK_DONE(gomxeli_req_unregister(state, len, 3));
    expected[0] = 2;
    lay_place(expected, 0, 1, 5, 511);
    lay_place(expected, 0, 2, 255, 65535);
    CHECK(memcmp(state, expected, len) == 0);
    CHECK_DONE(gomxeli_req_unregister(state, len, 5));
    CHECK_DONE(gomxeli_req_unregister(state, len, 127));
    expected[0] = 0;
    lay_place(expected, 0, 0, 255, 65535);
    lay_place(expected, 0, 1, 255, 65535);
    CHECK(memcmp(state, expected, len) == 0);
}

/* ------------------------------------------------------------------------ */
/* All entries                                                              */
/* ------------------------------------------------------------------------ */

/* All 128; of all services just theirs have an entry, and none for a loop-back frame. */
static void test_full(unsigned stride)
{
    static uint8_t state[GOMXELI_REQ_LENGTH];
    const size_t len = sizeof state;
    CHECK_DONE(gomxeli_req_open(state, len));
    for (unsigned e = 0; e < 128; e++)
        CHECK_DONE(gomxeli_req_register(state, len, e, stride * e));
    CHECK_REFUSED(gomxeli_req_register(state, len, 127, 511), GOMXELI_REGISTERED);
    for (unsigned s = 0; s <= 511; s++) {
        bool has_entry = s % stride == 0 && s / stride < 128;
        CHECK_PARTS(gomxeli_req_poll_push(state, len, s, 0), 0, has_entry,
                    has_entry ? s / stride : 0, 0);
        CHECK_NONE(gomxeli_req_poll_push(state, len, s, (uint8_t)(1 + s % 255)));
    }
    for (unsigned e = 0; e < 128; e++) {
        CHECK_DONE(gomxeli_req_unregister(state, len, e));
        CHECK_NONE(gomxeli_req_poll_push(state, len, stride * e, 0));
    }
    for (unsigned at = 1; at < 385; at++)
        CHECK(state[at] == 255);
}

/* The header's example. */
static void test_example(void)
{
    static uint8_t req[GOMXELI_REQ_LENGTH];
    gomxeli_req_open(req, sizeof req);
    gomxeli_req_register(req, sizeof req, 3, 430);
    gomxeli_answer a = gomxeli_req_poll_push(req, sizeof req, 430, 0);
    CHECK(gomxeli_number(a) == GOMXELI_ACCEPTED && gomxeli_what(a) == 1);
    CHECK(gomxeli_first(a) == 3);
}

/* ------------------------------------------------------------------------ */
/* Refusals                                                                 */
/* ------------------------------------------------------------------------ */

static void service_512(struct state *state)
{
    lay_place(state->byte, 0, 2, 127, 512);
}

static void service_twice(struct state *state)
{
    memcpy(state->byte + 5, state->byte + 2, 2);
}

static const struct breaking breakings[] = {
    {"one byte short", cut_last},
    {"one byte long", add_byte},
    {"empty", cut_all},
    {"129 entries", count_129},
    {"entry 128", entry_128},
    {"an entry twice", entry_twice},
    {"services out of order", out_of_order},
    {"service 512", service_512},
    {"a service twice", service_twice},
    {NULL, NULL},
};

/* 1 with 2, 3, 5, 7 and 8. */
static const struct pair pairs[] = {
    {"register: entry 128", req_register, {9, 50}, {128, 50}, GOMXELI_ENTRY_RANGE},
    {"register: the largest entry", req_register, {9, 50}, {UINT32_MAX, 0}, GOMXELI_ENTRY_RANGE},
    {"register: service 512", req_register, {9, 511}, {9, 512}, GOMXELI_RANGE},
    {"register: the largest service", req_register, {9, 0}, {9, UINT32_MAX}, GOMXELI_RANGE},
    {"register: a registered entry", req_register, {9, 50}, {0, 50}, GOMXELI_REGISTERED},
    {"register: an occupied service", req_register, {9, 50}, {9, 100}, GOMXELI_OCCUPIED},
    {"unregister: entry 128", req_unregister, {0}, {128}, GOMXELI_ENTRY_RANGE},
    {"unregister: entry not registered", req_unregister, {1}, {9}, GOMXELI_NOT_REGISTERED},
    {"push: service 512", req_poll_push, {100, 0}, {512, 0}, GOMXELI_RANGE},
    {"push: service 512, loop-back", req_poll_push, {100, 1}, {512, 1}, GOMXELI_RANGE},
    {"push: the largest service", req_poll_push, {511, 0}, {UINT32_MAX, 0}, GOMXELI_RANGE},
    {NULL, NULL, {0}, {0}, 0},
};

/*
 * 2 never meets 5, nor 3 7: an entry above 127 is not registered, and a service above
 * 511 has none.
 */
static const struct meeting meetings[] = {
    {"2 with 3", req_register, {128, 512}, GOMXELI_ENTRY_RANGE, {9, 512}, GOMXELI_RANGE},
    {"2 with 7", req_register, {128, 100}, GOMXELI_ENTRY_RANGE, {9, 100}, GOMXELI_OCCUPIED},
    {"3 with 5", req_register, {0, 512}, GOMXELI_RANGE, {0, 50}, GOMXELI_REGISTERED},
    {"5 with 7", req_register, {0, 200}, GOMXELI_REGISTERED, {9, 200}, GOMXELI_OCCUPIED},
    {"5 with 7, its own", req_register, {0, 100}, GOMXELI_REGISTERED, {9, 100}, GOMXELI_OCCUPIED},
    {"2 with 8", req_unregister, {128}, GOMXELI_ENTRY_RANGE, {9}, GOMXELI_NOT_REGISTERED},
    {NULL, NULL, {0}, 0, {0}, 0},
};

static const struct tried tried[] = {
    {req_open, {0}}, {req_register, {9, 50}}, {req_unregister, {0}}, {req_poll_push, {100, 0}},
    {NULL, {0}},
};

/* 0 on 100, 1 on 200, 127 on 300. */
static void test_refusals(void)
{
    static struct state whole;
    whole.len = GOMXELI_REQ_LENGTH;
    CHECK_DONE(gomxeli_req_open(LENT(&whole)));
    CHECK_DONE(gomxeli_req_register(LENT(&whole), 0, 100));
    CHECK_DONE(gomxeli_req_register(LENT(&whole), 1, 200));
    CHECK_DONE(gomxeli_req_register(LENT(&whole), 127, 300));
    check_pairs(pairs, &whole, breakings);
    check_meetings(meetings, &whole);
    check_lengths(&whole, tried, GOMXELI_NOT_WHOLE);
    check_numbers(&kind, &whole);
}

/* ------------------------------------------------------------------------ */
/* One byte changed                                                         */
/* ------------------------------------------------------------------------ */

static void test_changes(unsigned count, uint32_t span)
{
    static struct state whole;
    fill(&kind, &whole, count, span);
    fill_silent(&whole, count);
    check_single_bytes(&kind, &whole, span);
}

void test_req(void)
{
    seed_random(1);
    test_open();
    check_runs(cases, sizeof cases / sizeof cases[0], GOMXELI_REQ_LENGTH);
    test_bytes();
    test_full(1);
    test_full(3);
    test_full(4);
    test_example();
    test_refusals();
    test_changes(0, 1);
    test_changes(1, 512);
    test_changes(6, 8);
    test_changes(6, 512);
    test_changes(127, 128);
    test_changes(128, 512);
    check_sequences(&kind);
}
