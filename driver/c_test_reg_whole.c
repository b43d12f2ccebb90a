/* Regular message reception: states that are not whole, and doubly wrong calls. */
#include "c_test.h"

#include <string.h>

#include "state_reg.h"

/* ------------------------------------------------------------------------ */
/* A whole state, and damage to it                                          */
/* ------------------------------------------------------------------------ */

/*
 * Active: 0 and 1 on 100, 3 on 200 with a mark, 4 on 300. Waiting: 6 and 7 on 400.
 * The last-gap flag is set, the walk points at 1.
 */
static void build_whole(struct state *state, unsigned slots)
{
    static const uint16_t subjects[6] = {100, 100, 150, 200, 300, 8000};
    state->len = GOMXELI_REG_LENGTH;
    CHECK_DONE(gomxeli_reg_open(LENT(state), 9));
    for (unsigned e = 0; e < 6; e++)
        CHECK_FLAG(gomxeli_reg_register(LENT(state), e, subjects[e]), e != 1);
    for (unsigned i = 0; i < 5; i++)
        CHECK(gomxeli_what(gomxeli_reg_poll_pop(LENT(state))) == 1);
    CHECK_NONE(gomxeli_reg_poll_pop(LENT(state)));
    CHECK_FLAG(gomxeli_reg_unregister(LENT(state), 2), 1);
    CHECK_FLAG(gomxeli_reg_unregister(LENT(state), 5), 1);
    CHECK_FLAG(gomxeli_reg_register(LENT(state), 6, 400), 1);
    CHECK_FLAG(gomxeli_reg_register(LENT(state), 7, 400), 0);
    CHECK_FLAG(gomxeli_reg_hub_push_start(LENT(state), 100), 1);
    CHECK_PARTS(gomxeli_reg_hub_push_next(LENT(state)), 0, 1, 0, 1);
    state->byte[SLOTS_AT] = (uint8_t)(slots % 256);
    state->byte[SLOTS_AT + 1] = (uint8_t)(slots / 256);
}

/* Where an entry stands, its subject follows; and where a node stands: next, then prev. */
#define ACTIVE(place) (ACTIVE_AT + 1 + 3 * (place))
#define WAITING(place) (INACTIVE_AT + 1 + 3 * (place))
#define NODE(i) (QUEUES_AT + 2 + 2 * (i))

/* An entry put at the back of a queue or out of both, and then some bytes set. */
struct damage {
    const char *what;
    enum { STAYS, TO_CLEAN_UP, TO_ACTIVATION, OUT } move;
    unsigned moved;
    struct {
        unsigned after; /* the byte's place and 1; 0 for none */
        uint8_t byte;
    } set[4];
};

#define UNMOVED STAYS, 0
#define SET(at, byte) {(at) + 1, (byte)}
#define SUBJECT(place, subject) SET((place) + 1, (subject) % 256), SET((place) + 2, (subject) / 256)
#define NO_BYTES {{0, 0}}

static const struct damage damages[] = {
    /* The parts' sizes. */
    {"129 active entries", UNMOVED, {SET(ACTIVE_AT, 129)}},
    {"255 active entries", UNMOVED, {SET(ACTIVE_AT, 255)}},
    {"129 waiting entries", UNMOVED, {SET(INACTIVE_AT, 129)}},
    {"1 class", UNMOVED, {SET(QUEUES_AT, 1)}},
    {"3 classes", UNMOVED, {SET(QUEUES_AT, 3)}},
    {"127 queue entries", UNMOVED, {SET(QUEUES_AT + 1, 127)}},
    {"129 queue entries", UNMOVED, {SET(QUEUES_AT + 1, 129)}},
    {"3 classes, 127 queue entries", UNMOVED, {SET(QUEUES_AT, 3), SET(QUEUES_AT + 1, 127)}},
    /* The queue. */
    {"a link to no node", UNMOVED, {SET(NODE(100), 130)}},
    {"a cycle not closed", UNMOVED, {SET(NODE(100), 101)}},
    {"a cycle closed one way", UNMOVED, {SET(NODE(100), 101), SET(NODE(101) + 1, 100)}},
    {"a cycle without class",
     UNMOVED,
     {SET(NODE(100), 101), SET(NODE(100) + 1, 101), SET(NODE(101), 100), SET(NODE(101) + 1, 100)}},
    {"a cycle of two classes",
     OUT,
     3,
     {SET(NODE(0), 8), SET(NODE(8) + 1, 0), SET(NODE(1), 0), SET(NODE(0) + 1, 1)}},
    /* Entries and subjects. */
    {"active entry 128", UNMOVED, {SET(ACTIVE(3), 128)}},
    {"active entry 255", UNMOVED, {SET(ACTIVE(3), 255)}},
    {"waiting entry 128", OUT, 7, {SET(WAITING(1), 128)}},
    {"active subject 8192", UNMOVED, {SUBJECT(ACTIVE(3), 8192), SET(LAST_GAP_AT, 0)}},
    {"active subject 65535", UNMOVED, {SUBJECT(ACTIVE(3), 65535), SET(LAST_GAP_AT, 0)}},
    {"waiting subject 8192", UNMOVED, {SUBJECT(WAITING(1), 8192)}},
    {"an entry twice active", UNMOVED, {SET(ACTIVE(3), 0)}},
    {"an entry twice waiting", OUT, 7, {SET(WAITING(1), 6)}},
    {"an entry active and waiting", UNMOVED, {SET(ACTIVE(3), 6)}},
    {"active subjects out of order", UNMOVED, {SUBJECT(ACTIVE(3), 198)}},
    {"waiting subjects out of order", UNMOVED, {SUBJECT(WAITING(1), 399)}},
    /* The queues and the trees. */
    {"a waiting entry in no queue", OUT, 7, NO_BYTES},
    {"a waiting entry in the clean-up queue", TO_CLEAN_UP, 7, NO_BYTES},
    {"an active entry in the activation queue", TO_ACTIVATION, 4, NO_BYTES},
    {"an unregistered entry in the activation queue", TO_ACTIVATION, 9, NO_BYTES},
    {"an unregistered entry in the clean-up queue", TO_CLEAN_UP, 9, NO_BYTES},
    {"a mark on a non-head", TO_CLEAN_UP, 1, NO_BYTES},
    {"a mark on subject 0", TO_CLEAN_UP, 0, {SUBJECT(ACTIVE(0), 0), SUBJECT(ACTIVE(1), 0)}},
    {"a mark with an active subject just below", TO_CLEAN_UP, 4, {SUBJECT(ACTIVE(3), 201)}},
    /* The ends. */
    {"the last-gap flag with 8191 active", UNMOVED, {SUBJECT(ACTIVE(3), 8191)}},
    {"a walk at a waiting entry", UNMOVED, {SET(WALK_AT, 6)}},
    {"a walk at an unregistered entry", UNMOVED, {SET(WALK_AT, 127)}},
};

/* What looks like damage and is none. */
static const struct damage no_damages[] = {
    {"nothing changed", UNMOVED, NO_BYTES},
    {"a mark on a head", TO_CLEAN_UP, 4, NO_BYTES},
    {"a mark on subject 1", TO_CLEAN_UP, 0, {SUBJECT(ACTIVE(0), 1), SUBJECT(ACTIVE(1), 1)}},
    {"a mark two subjects above", TO_CLEAN_UP, 4, {SUBJECT(ACTIVE(3), 202)}},
    {"no mark", OUT, 3, NO_BYTES},
    {"the activation queue in another order", TO_ACTIVATION, 6, NO_BYTES},
    {"8191 active without the flag", UNMOVED, {SUBJECT(ACTIVE(3), 8191), SET(LAST_GAP_AT, 0)}},
    {"8190 active with the flag", UNMOVED, {SUBJECT(ACTIVE(3), 8190)}},
    {"8191 waiting", UNMOVED, {SUBJECT(WAITING(1), 8191)}},
    {"flag 255", UNMOVED, {SET(LAST_GAP_AT, 255)}},
    {"walk 128", UNMOVED, {SET(WALK_AT, 128)}},
    {"walk at a head", UNMOVED, {SET(WALK_AT, 3)}},
    {"all slots", UNMOVED, {SET(SLOTS_AT, 255), SET(SLOTS_AT + 1, 255)}},
    {"an unused place", UNMOVED, {SET(ACTIVE(4), 0), SET(WAITING(127) + 2, 99)}},
    {"entry 127, and the walk at it", UNMOVED, {SET(ACTIVE(1), 127), SET(WALK_AT, 127)}},
};

enum { DAMAGES = sizeof damages / sizeof damages[0] };
enum { NO_DAMAGES = sizeof no_damages / sizeof no_damages[0] };

/* The queue is a list queue's state of 2 classes and 128 entries. */
static void apply(const struct damage *damage, struct state *state)
{
    uint8_t *queue = state->byte + QUEUES_AT;
    const size_t len = SLOTS_AT - QUEUES_AT;
    if (damage->move == OUT)
        CHECK_DONE(gomxeli_mcq_remove(queue, len, damage->moved));
    if (damage->move == TO_CLEAN_UP || damage->move == TO_ACTIVATION)
        CHECK_DONE(gomxeli_mcq_move_back(queue, len, damage->move == TO_ACTIVATION, damage->moved));
    for (unsigned i = 0; i < 4 && damage->set[i].after > 0; i++)
        state->byte[damage->set[i].after - 1] = damage->set[i].byte;
}

/* ------------------------------------------------------------------------ */
/* Refusal 1                                                                */
/* ------------------------------------------------------------------------ */

/* The calls that look at the state, with numbers for which they are accepted. */
static const struct tried calls[] = {
    {reg_register, {9, 400}},    {reg_unregister, {0}},    {reg_poll_pop, {0}},
    {reg_hub_push_start, {200}}, {reg_hub_push_next, {0}}, {NULL, {0}},
};

static void test_damages(const struct state *whole)
{
    static struct state state;
    for (unsigned i = 0; i < DAMAGES; i++) {
        state = *whole;
        apply(&damages[i], &state);
        for (unsigned c = 0; calls[c].call != NULL; c++)
            check(refuses(calls[c].call, &state, calls[c].n, GOMXELI_NOT_WHOLE), __FILE__, __LINE__,
                  damages[i].what);
    }
}

static void test_no_damages(const struct state *whole)
{
    static struct state state, lent;
    for (unsigned i = 0; i < NO_DAMAGES; i++) {
        state = *whole;
        apply(&no_damages[i], &state);
        for (unsigned c = 0; calls[c].call != NULL; c++) {
            lent = state;
            gomxeli_answer answer = calls[c].call(LENT(&lent), calls[c].n);
            check(gomxeli_number(answer) == GOMXELI_ACCEPTED, __FILE__, __LINE__,
                  no_damages[i].what);
        }
    }
}

/* A tree with all its places taken, and a count that passes them. */
static void test_past_places(bool active)
{
    static struct state state;
    unsigned tree = active ? ACTIVE_AT : INACTIVE_AT;
    state.len = GOMXELI_REG_LENGTH;
    CHECK_DONE(gomxeli_reg_open(LENT(&state), 128));
    for (unsigned e = 0; e < 128; e++)
        CHECK_FLAG(gomxeli_reg_register(LENT(&state), e, 2 * e), 1);
    for (unsigned i = 0; active && i < 128; i++)
        CHECK_PARTS(gomxeli_reg_poll_pop(LENT(&state)), 0, 1, 2 * i, 0);
    CHECK(state.byte[tree] == 128);
    for (unsigned count = 129; count <= UINT8_MAX; count++) {
        state.byte[tree] = (uint8_t)count;
        for (unsigned c = 0; calls[c].call != NULL; c++)
            CHECK(refuses(calls[c].call, &state, calls[c].n, GOMXELI_NOT_WHOLE));
    }
}

static void test_lengths(const struct state *whole)
{
    static const struct tried opening[] = {{reg_open, {5}}, {NULL, {0}}};
    check_lengths(whole, opening, GOMXELI_NOT_WHOLE);
    check_lengths(whole, calls, GOMXELI_NOT_WHOLE);
}

/* ------------------------------------------------------------------------ */
/* Doubly wrong calls                                                       */
/* ------------------------------------------------------------------------ */

/* 1 with 2, 3, 5, 6 and 8, of a state with no slot. */
static const struct pair pairs[] = {
    {"register: entry 128", reg_register, {9, 100}, {128, 100}, GOMXELI_ENTRY_RANGE},
    {"register: subject 8192", reg_register, {9, 100}, {9, 8192}, GOMXELI_RANGE},
    {"register: an active entry", reg_register, {9, 100}, {0, 100}, GOMXELI_REGISTERED},
    {"register: a waiting entry", reg_register, {9, 400}, {6, 400}, GOMXELI_REGISTERED},
    {"register: no slot", reg_register, {9, 400}, {9, 500}, GOMXELI_NO_SUBJECT_SLOT},
    {"unregister: entry 128", reg_unregister, {0}, {128}, GOMXELI_ENTRY_RANGE},
    {"unregister: entry not registered", reg_unregister, {7}, {9}, GOMXELI_NOT_REGISTERED},
    {"start: subject 8192", reg_hub_push_start, {100}, {8192}, GOMXELI_RANGE},
    {NULL, NULL, {0}, {0}, 0},
};

/* 1 with 9, of a state with all slots. */
static const struct pair pairs_with_all_slots[] = {
    {"unregister: the last head", reg_unregister, {0}, {4}, GOMXELI_SLOTS_FULL},
    {"unregister: a head before a head", reg_unregister, {1}, {3}, GOMXELI_SLOTS_FULL},
    {NULL, NULL, {0}, {0}, 0},
};

static void test_pairs(const struct pair *pair, const struct state *whole)
{
    static struct state broken;
    for (; pair->what != NULL; pair++) {
        for (unsigned i = 0; i < DAMAGES; i++) {
            broken = *whole;
            apply(&damages[i], &broken);
            check_pair(pair, damages[i].what, whole, &broken, GOMXELI_NOT_WHOLE, GOMXELI_NOT_WHOLE);
        }
    }
}

/*
 * Of a state with no slot. 2 never meets 5, nor 8 9: an entry above 127 is not
 * registered, and only a registered one can give a slot back.
 */
static const struct meeting meetings[] = {
    {"2 with 3", reg_register, {128, 8192}, GOMXELI_ENTRY_RANGE, {9, 8192}, GOMXELI_RANGE},
    {"2 with 6", reg_register, {128, 500}, GOMXELI_ENTRY_RANGE, {9, 500}, GOMXELI_NO_SUBJECT_SLOT},
    {"3 with 5", reg_register, {0, 8192}, GOMXELI_RANGE, {0, 100}, GOMXELI_REGISTERED},
    {"3 with 5, waiting", reg_register, {6, 8192}, GOMXELI_RANGE, {6, 400}, GOMXELI_REGISTERED},
    {"3 with 6", reg_register, {9, 8192}, GOMXELI_RANGE, {9, 8191}, GOMXELI_NO_SUBJECT_SLOT},
    {"5 with 6", reg_register, {0, 500}, GOMXELI_REGISTERED, {9, 500}, GOMXELI_NO_SUBJECT_SLOT},
    {"2 with 8", reg_unregister, {128}, GOMXELI_ENTRY_RANGE, {9}, GOMXELI_NOT_REGISTERED},
    {NULL, NULL, {0}, 0, {0}, 0},
};

/* 1 with 3 at opening: 1, as in the table; there are no sizes whose length could be meant. */
static void test_open_pair(void)
{
    static const struct pair pair = {
        "open: 65536 slots", reg_open, {65535}, {65536}, GOMXELI_RANGE};
    static struct state right, wrong;
    right.len = GOMXELI_REG_LENGTH;
    for (wrong.len = 0; wrong.len < 2 * GOMXELI_REG_LENGTH; wrong.len++)
        if (wrong.len != right.len)
            check_pair(&pair, "wrong length", &right, &wrong, GOMXELI_NOT_WHOLE, GOMXELI_NOT_WHOLE);
}

void test_reg_whole(void)
{
    static struct state whole, with_all_slots;
    build_whole(&whole, 0);
    build_whole(&with_all_slots, GOMXELI_REG_SLOTS_MAX);
    test_damages(&whole);
    test_no_damages(&whole);
    test_past_places(true);
    test_past_places(false);
    test_lengths(&whole);
    test_pairs(pairs, &whole);
    test_pairs(pairs_with_all_slots, &with_all_slots);
    check_meetings(meetings, &whole);
    test_open_pair();
}
