/* Message and response transmission: refusals, their order, and bytes that are not whole. */
#include "c_test_tx.h"

#include <stdio.h>
#include <string.h>

#include "random.h"
#include "state_tx.h"

/* ------------------------------------------------------------------------ */
/* Two whole states                                                         */
/* ------------------------------------------------------------------------ */

#define STEP(called, ...) called(LENT(state), (const uint32_t[MOST_NUMBERS]){__VA_ARGS__})

/*
 * 0 and 1 are ready at 4, 0 with a transfer started; 2 at 6, 3 not at all, 127 at 4 and
 * 7. The wake mask is that of 5. A pick of 4 and 6, if one is open, names 0.
 */
static void build_whole(struct state *state, bool picked)
{
    state->len = tx->modelled.len;
    CHECK_DONE(STEP(tx_open, 0));
    CHECK_DONE(STEP(tx_register, 0, P(4)));
    CHECK_PARTS(STEP(tx_pick, P(4), 8), 0, 1, 0, 4);
    CHECK_DONE(STEP(tx_settle, A_FRAME, P(4), 4, 8, GOES_ON));
    CHECK_DONE(STEP(tx_register, 1, P(4)));
    CHECK_DONE(STEP(tx_register, 2, P(6)));
    CHECK_DONE(STEP(tx_register, 3, 0));
    CHECK_DONE(STEP(tx_register, 127, P(4) | P(7)));
    CHECK_DONE(STEP(tx_pick, P(5), 64));
    if (picked)
        CHECK_PARTS(STEP(tx_pick, P(4) | P(6), 8), 0, 1, 0, 4);
}

/* ------------------------------------------------------------------------ */
/* Damage                                                                   */
/* ------------------------------------------------------------------------ */

enum { MOST_SET = 5 };

/* An entry put at the back of a queue or out of all, and then some bytes set. */
struct damage {
    const char *what;
    unsigned moved, cls; /* NO_CLASS: to none; NOT_MOVED: nothing is moved */
    bool of_tree;        /* the bytes are those of the tree, which messages have */
    struct {
        unsigned after; /* the byte's place in the transmit queue or tree, and 1; 0 for none */
        uint8_t byte;
    } set[MOST_SET];
};

enum { NOT_MOVED = NO_CLASS + 1 };

#define UNMOVED 0, NOT_MOVED, false
#define MOVED(entry, cls) (entry), (cls), false
#define IN_TREE 0, NOT_MOVED, true
#define SET(at, byte) {(at) + 1, (byte)}
#define NO_BYTES {{0, 0}}

/* Where a node's next stands, its prev follows; and where a place of the tree stands. */
#define CLASS_NODE(cls) (2 + 2 * (cls))
#define NODE(entry) (2 + 2 * (16 + (entry)))
#define PLACE(i) (1 + 3 * (i))

/* Behind the last place, with subject 8190 now, one with subject 8191, of entry 0. */
#define PAIR_MORE SET(PLACE(4) + 1, 254), SET(PLACE(5) + 1, 255), SET(PLACE(5) + 2, 31)

/* Of both whole states. */
static const struct damage damages[] = {
    {"15 classes", UNMOVED, {SET(0, 15)}},
    {"17 classes", UNMOVED, {SET(0, 17)}},
    {"127 entries", UNMOVED, {SET(1, 127)}},
    {"129 entries", UNMOVED, {SET(1, 129)}},
    {"17 classes, 127 entries", UNMOVED, {SET(0, 17), SET(1, 127)}},
    {"a link to no node", UNMOVED, {SET(NODE(100), 144)}},
    {"a cycle not closed", UNMOVED, {SET(NODE(100), 117)}},
    {"a cycle closed one way", UNMOVED, {SET(NODE(100), 117), SET(NODE(101) + 1, 116)}},
    {"a cycle without class",
     UNMOVED,
     {SET(NODE(100), 117), SET(NODE(100) + 1, 117), SET(NODE(101), 116), SET(NODE(101) + 1, 116)}},
    {"a cycle of two classes",
     UNMOVED,
     {SET(CLASS_NODE(0), 1), SET(CLASS_NODE(0) + 1, 1), SET(CLASS_NODE(1), 0),
      SET(CLASS_NODE(1) + 1, 0)}},
    {"a started one among the finished", MOVED(0, 9), NO_BYTES},
    {"a finished one among the started", MOVED(1, 8), NO_BYTES},
    {"a ready one in no queue", MOVED(1, NO_CLASS), NO_BYTES},
    {"one in the queue of a ready priority that is not its most urgent", MOVED(127, 15), NO_BYTES},
    {"one in the queue of another priority", MOVED(2, 11), NO_BYTES},
    {"one that is not ready in a queue", MOVED(3, 9), NO_BYTES},
    {"an unregistered one in a queue", MOVED(9, 9), NO_BYTES},
    {"an unregistered one in the queue of its sets", MOVED(9, 9), {SET(290 + 9, P(4))}},
    {"readiness lost", UNMOVED, {SET(290 + 1, 0)}},
    {"readiness less urgent", UNMOVED, {SET(290 + 1, P(5))}},
    {"readiness more urgent", UNMOVED, {SET(290 + 1, P(3) | P(4))}},
    {"readiness come", UNMOVED, {SET(290 + 3, P(0))}},
    {"started come", UNMOVED, {SET(418 + 1, P(4))}},
    {"started lost", UNMOVED, {SET(418 + 0, 0)}},
    {"a queued one not registered", UNMOVED, {SET(546 + 1, 0)}},
    {"mtu 1", UNMOVED, {SET(675, 255), SET(676, 1)}},
    {"mtu 7", UNMOVED, {SET(675, 255), SET(676, 7)}},
    {"mtu 9", UNMOVED, {SET(675, 255), SET(676, 9)}},
    {"mtu 63", UNMOVED, {SET(675, 255), SET(676, 63)}},
    {"mtu 65", UNMOVED, {SET(675, 255), SET(676, 65)}},
    {"mtu 72", UNMOVED, {SET(675, 255), SET(676, 72)}},
    {"mtu 255", UNMOVED, {SET(675, 255), SET(676, 255)}},
    {"a pick of no priority", UNMOVED, {SET(675, 0), SET(676, 8)}},
    {"a pick of priorities that are not ready", UNMOVED, {SET(675, 0xaf), SET(676, 64)}},
    {"a pick of a ready priority that is nobody's most urgent",
     UNMOVED,
     {SET(675, P(7)), SET(676, 8)}},
    {"129 pairs", IN_TREE, {SET(0, 129)}},
    {"255 pairs", IN_TREE, {SET(0, 255)}},
    {"one pair too few", IN_TREE, {SET(0, 4)}},
    {"one pair too many", IN_TREE, {SET(0, 6), PAIR_MORE, SET(PLACE(5), 9)}},
    {"one pair too many, of an entry that has one", IN_TREE, {SET(0, 6), PAIR_MORE}},
    {"entry 128", IN_TREE, {SET(PLACE(0), 128)}},
    {"an entry twice", IN_TREE, {SET(PLACE(1), 127)}},
    {"an unregistered entry", IN_TREE, {SET(PLACE(1), 9)}},
    {"subject 8192", IN_TREE, {SET(PLACE(4) + 1, 0), SET(PLACE(4) + 2, 32)}},
    {"subject 65535", IN_TREE, {SET(PLACE(4) + 1, 255), SET(PLACE(4) + 2, 255)}},
    {"subjects out of order", IN_TREE, {SET(PLACE(3) + 1, 255), SET(PLACE(3) + 2, 29)}},
    {"a subject twice", IN_TREE, {SET(PLACE(3) + 1, 127), SET(PLACE(3) + 2, 31)}},
    {"a registered one without pair", UNMOVED, {SET(546 + 9, 1), SET(290 + 9, 0)}},
    {"a pair not registered", UNMOVED, {SET(546 + 3, 0)}},
};

/* The last two are damage to messages alone. */
enum { DAMAGES = sizeof damages / sizeof damages[0], FLAG_DAMAGES = 2 };

/* What looks like damage and is none. */
static const struct damage no_damages[] = {
    {"nothing changed", UNMOVED, NO_BYTES},
    {"a queue in another order", MOVED(1, 9), NO_BYTES},
    {"sets of an unregistered one", UNMOVED, {SET(290 + 9, P(4)), SET(418 + 9, 255)}},
    {"a flag of 255", UNMOVED, {SET(546 + 1, 255)}},
    {"a flag of 128", UNMOVED, {SET(546 + 3, 128)}},
    {"started where it is not ready", UNMOVED, {SET(418 + 3, 255)}},
    {"started at another priority", UNMOVED, {SET(418 + 1, ~P(4) & 255)}},
    {"ready less urgently too", UNMOVED, {SET(290 + 1, 0xf0)}},
    {"all in the wake mask", UNMOVED, {SET(674, 255)}},
    {"an unused place", IN_TREE, {PAIR_MORE, SET(PLACE(5), 9), SET(PLACE(127) + 2, 99)}},
    {"subject 8191", IN_TREE, {SET(PLACE(4) + 1, 255), SET(PLACE(4) + 2, 31)}},
    {"subject 0", IN_TREE, {SET(PLACE(0) + 1, 0), SET(PLACE(0) + 2, 0)}},
};

enum { NO_DAMAGES = sizeof no_damages / sizeof no_damages[0] };

/* Whether it is damage to the kind under test. */
static bool applies(unsigned damage)
{
    bool to_messages_alone = damages[damage].of_tree || damage >= DAMAGES - FLAG_DAMAGES;
    return tx->queue_at > 0 || !to_messages_alone;
}

/* The list queue is one of 16 classes and 128 entries. */
static void apply(const struct damage *damage, struct state *state)
{
    uint8_t *queue = state->byte + tx->queue_at;
    uint8_t *bytes = damage->of_tree ? state->byte : queue;
    const size_t len = READINESS_AT;
    if (damage->cls == NO_CLASS)
        CHECK_DONE(gomxeli_mcq_remove(queue, len, damage->moved));
    else if (damage->cls != NOT_MOVED)
        CHECK_DONE(gomxeli_mcq_move_back(queue, len, damage->cls, damage->moved));
    for (unsigned i = 0; i < MOST_SET && damage->set[i].after > 0; i++)
        bytes[damage->set[i].after - 1] = damage->set[i].byte;
}

/* ------------------------------------------------------------------------ */
/* Refusals                                                                 */
/* ------------------------------------------------------------------------ */

/*
 * A call with its numbers, and what it answers where no pick is open and where one is:
 * a refusal, the one that comes first where several apply, or 0.
 */
struct refused {
    const char *what;
    call_function *call;
    uint32_t n[MOST_NUMBERS];
    unsigned closed, open;
};

enum { DONE = GOMXELI_ACCEPTED };

/*
 * Of both kinds: 2, 3, 10, 11, 12, 5 and 8, each alone and each two that can meet. 2 never
 * meets 5, since an entry above 127 is not registered, nor 10 11.
 */
static const struct refused refused[] = {
    {"register", tx_register, {9, 1}, DONE, GOMXELI_PICK_OPEN},
    {"register: registered", tx_register, {0, 1}, GOMXELI_REGISTERED, GOMXELI_PICK_OPEN},
    {"register: entry", tx_register, {128, 1}, GOMXELI_ENTRY_RANGE, GOMXELI_ENTRY_RANGE},
    {"register: largest", tx_register, {UINT32_MAX, 1}, GOMXELI_ENTRY_RANGE, GOMXELI_ENTRY_RANGE},
    {"unregister", tx_unregister, {0}, DONE, GOMXELI_PICK_OPEN},
    {"unregister: unready", tx_unregister, {3}, DONE, GOMXELI_PICK_OPEN},
    {"unregister: not there", tx_unregister, {9}, GOMXELI_NOT_REGISTERED, GOMXELI_PICK_OPEN},
    {"unregister: entry", tx_unregister, {128}, GOMXELI_ENTRY_RANGE, GOMXELI_ENTRY_RANGE},
    {"update", tx_update, {0, 1}, DONE, GOMXELI_PICK_OPEN},
    {"update: not there", tx_update, {9, 1}, GOMXELI_NOT_REGISTERED, GOMXELI_PICK_OPEN},
    {"update: entry", tx_update, {128, 1}, GOMXELI_ENTRY_RANGE, GOMXELI_ENTRY_RANGE},
    {"pick", tx_pick, {255, 8}, DONE, GOMXELI_PICK_OPEN},
    {"pick, nothing", tx_pick, {1, 64}, DONE, GOMXELI_PICK_OPEN},
    {"pick, no mask", tx_pick, {0, 64}, DONE, GOMXELI_PICK_OPEN},
    {"pick: mtu", tx_pick, {255, 9}, GOMXELI_RANGE, GOMXELI_RANGE},
    {"pick: mtu 0", tx_pick, {255, 0}, GOMXELI_RANGE, GOMXELI_RANGE},
    {"pick: largest mtu", tx_pick, {255, UINT32_MAX}, GOMXELI_RANGE, GOMXELI_RANGE},
    {"settle", tx_settle, {A_FRAME, 1, 4, 8, ENDS}, GOMXELI_NO_PICK, DONE},
    {"settle: length 0", tx_settle, {A_FRAME, 1, 4, 0, 0}, GOMXELI_NO_PICK, GOMXELI_BAD_FRAME},
    {"settle: length 9", tx_settle, {A_FRAME, 1, 4, 9, 0}, GOMXELI_NO_PICK, GOMXELI_BAD_FRAME},
    {"settle: priority 6", tx_settle, {A_FRAME, 1, 6, 8, 0}, GOMXELI_NO_PICK, GOMXELI_BAD_FRAME},
    {"settle: both", tx_settle, {A_FRAME, 1, 6, 0, 0}, GOMXELI_NO_PICK, GOMXELI_BAD_FRAME},
    {"settle: priority 8", tx_settle, {A_FRAME, 1, 8, 8, 0}, GOMXELI_RANGE, GOMXELI_RANGE},
    {"settle: 8, length 0", tx_settle, {A_FRAME, 1, 8, 0, 0}, GOMXELI_RANGE, GOMXELI_RANGE},
    {"settle: largest", tx_settle, {255, 1, UINT32_MAX, 8, 0}, GOMXELI_RANGE, GOMXELI_RANGE},
    {"settle, no frame", tx_settle, {NO_FRAME, 1, 4, 8, ENDS}, GOMXELI_NO_PICK, DONE},
    {"settle, unread", tx_settle, {NO_FRAME, 1, 8, 0, 0}, GOMXELI_NO_PICK, DONE},
    {"settle, unread", tx_settle, {NO_FRAME, 1, UINT32_MAX, 9, 0}, GOMXELI_NO_PICK, DONE},
    {"settle, unread", tx_settle, {NO_FRAME, 1, 6, UINT32_MAX, 0}, GOMXELI_NO_PICK, DONE},
};

/* Of messages: 3 and 7 at registering. 0 is on 8191, 1 on 8127. */
static const struct refused refused_by_subject[] = {
    {"subject", txm_register, {9, 0, 1}, DONE, GOMXELI_PICK_OPEN},
    {"subject 8190", txm_register, {9, 8190, 1}, DONE, GOMXELI_PICK_OPEN},
    {"subject 8192", txm_register, {9, 8192, 1}, GOMXELI_RANGE, GOMXELI_RANGE},
    {"largest subject", txm_register, {9, UINT32_MAX, 1}, GOMXELI_RANGE, GOMXELI_RANGE},
    {"subject in 13 bits", txm_register, {9, 65536, 1}, GOMXELI_RANGE, GOMXELI_RANGE},
    {"occupied", txm_register, {9, 8191, 1}, GOMXELI_OCCUPIED, GOMXELI_PICK_OPEN},
    {"2 with 3", txm_register, {128, 8192, 1}, GOMXELI_ENTRY_RANGE, GOMXELI_ENTRY_RANGE},
    {"2 with 7", txm_register, {128, 8191, 1}, GOMXELI_ENTRY_RANGE, GOMXELI_ENTRY_RANGE},
    {"3 with 5", txm_register, {0, 8192, 1}, GOMXELI_RANGE, GOMXELI_RANGE},
    {"5 with 7", txm_register, {0, 8127, 1}, GOMXELI_REGISTERED, GOMXELI_PICK_OPEN},
    {"5 with 7, its own", txm_register, {0, 8191, 1}, GOMXELI_REGISTERED, GOMXELI_PICK_OPEN},
};

enum {
    REFUSED_ROWS = sizeof refused / sizeof refused[0],
    BY_SUBJECT = sizeof refused_by_subject / sizeof refused_by_subject[0]
};

static void check_row(bool holds, const char *row, const char *how)
{
    char text[100];
    snprintf(text, sizeof text, "%s; %s", row, how);
    check(holds, __FILE__, __LINE__, text);
}

/* Accepted where the number is 0. */
static bool answers(const struct refused *row, const struct state *state, unsigned number)
{
    static struct state lent;
    if (number != GOMXELI_ACCEPTED)
        return refuses(row->call, state, row->n, number);
    lent = *state;
    return gomxeli_number(row->call(LENT(&lent), row->n)) == GOMXELI_ACCEPTED;
}

/* On whole bytes the row's answers, on damaged ones 1. */
static void check_refused(const struct refused *row, const struct state *closed,
                          const struct state *open)
{
    static struct state broken;
    check_row(answers(row, closed, row->closed), row->what, "no pick open");
    check_row(answers(row, open, row->open), row->what, "a pick open");
    for (unsigned i = 0; i < DAMAGES; i++) {
        if (!applies(i))
            continue;
        broken = *closed;
        apply(&damages[i], &broken);
        check_row(refuses(row->call, &broken, row->n, GOMXELI_NOT_WHOLE), row->what,
                  damages[i].what);
        broken = *open;
        apply(&damages[i], &broken);
        check_row(refuses(row->call, &broken, row->n, GOMXELI_NOT_WHOLE), row->what,
                  damages[i].what);
    }
}

static void check_not_refused(const struct refused *row, const struct state *closed,
                              const struct state *open)
{
    static struct state state;
    for (unsigned i = 0; i < NO_DAMAGES; i++) {
        if (tx->queue_at == 0 && no_damages[i].of_tree)
            continue;
        state = *closed;
        apply(&no_damages[i], &state);
        check_row(answers(row, &state, row->closed), row->what, no_damages[i].what);
        state = *open;
        apply(&no_damages[i], &state);
        check_row(answers(row, &state, row->open), row->what, no_damages[i].what);
    }
}

static void test_refusals(const struct state *closed, const struct state *open)
{
    for (unsigned i = 0; i < REFUSED_ROWS; i++) {
        check_refused(&refused[i], closed, open);
        check_not_refused(&refused[i], closed, open);
    }
    for (unsigned i = 0; i < BY_SUBJECT && tx->queue_at > 0; i++)
        check_refused(&refused_by_subject[i], closed, open);
}

/* ------------------------------------------------------------------------ */
/* Lengths, openings, numbers                                               */
/* ------------------------------------------------------------------------ */

static const struct tried tried[] = {
    {tx_open, {0}},      {tx_register, {9, 1}}, {tx_unregister, {0}},
    {tx_update, {0, 1}}, {tx_pick, {255, 8}},   {tx_settle, {A_FRAME, 1, 4, 8, ENDS}},
    {NULL, {0}},
};

/* An open pick is no reason to refuse an opening, which leaves none. */
static void test_opening(const struct state *open)
{
    static struct state state, fresh;
    state = *open;
    fresh = *open;
    memset(fresh.byte, 0xa5, fresh.len);
    CHECK_DONE(tx_open(LENT(&state), NULL));
    CHECK_DONE(tx_open(LENT(&fresh), NULL));
    CHECK(same_state(&state, &fresh));
}

/* ------------------------------------------------------------------------ */
/* One byte changed                                                         */
/* ------------------------------------------------------------------------ */

/* Sets of unregistered entries, flags that are set, and a mask that says nothing. */
static void scatter_silent(struct state *state)
{
    for (unsigned e = 0; e < REGISTRY_ENTRIES; e++) {
        if (QUEUE_BYTE(state, REGISTERED_AT + e) != 0) {
            QUEUE_BYTE(state, REGISTERED_AT + e) = (uint8_t)(1 + below(UINT8_MAX));
        } else {
            QUEUE_BYTE(state, READINESS_AT + e) = (uint8_t)random_bits();
            QUEUE_BYTE(state, STARTED_AT + e) = (uint8_t)random_bits();
        }
    }
    if (QUEUE_BYTE(state, PICK_MTU_AT) == 0)
        QUEUE_BYTE(state, PICK_MASK_AT) = (uint8_t)random_bits();
}

/* So many entries, after random calls, with a pick of the mtu or with none. */
static void test_changes(unsigned count, unsigned mtu)
{
    static struct state whole;
    struct state *state = &whole;
    const uint32_t span = 8192;
    fill(&tx->modelled, &whole, count, span);
    CHECK(random_calls_agree(&tx->modelled, &whole, span, 4 * count));
    STEP(tx_settle, NO_FRAME, P(4), 0, 0, 0);
    if (tx->queue_at > 0)
        fill_silent(&whole, whole.byte[0]);
    scatter_silent(&whole);
    if (mtu != 0)
        CHECK(gomxeli_what(STEP(tx_pick, 0xff, mtu)) == 1);
    check_single_bytes(&tx->modelled, &whole, span);
}

void test_tx_whole(void)
{
    static struct state closed, open;
    build_whole(&closed, false);
    build_whole(&open, true);
    test_refusals(&closed, &open);
    test_opening(&open);
    check_lengths(&closed, tried, GOMXELI_NOT_WHOLE);
    check_lengths(&open, tried, GOMXELI_NOT_WHOLE);
    check_numbers(&tx->modelled, &closed);
    check_numbers(&tx->modelled, &open);
    test_changes(1, 0);
    test_changes(6, 8);
    test_changes(20, 0);
    test_changes(128, 64);
}
