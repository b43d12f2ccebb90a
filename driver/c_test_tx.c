/* Message and response transmission, call by call. */
#include "c_test_tx.h"

#include <string.h>

#define KIND tx
#include "c_test_steps.h"
#include "model_tx.h"
#include "random.h"
#include "state_tx.h"

/* ------------------------------------------------------------------------ */
/* Both kinds                                                               */
/* ------------------------------------------------------------------------ */

unsigned own_subject(unsigned entry)
{
    return 8191 - 64 * entry;
}

static gomxeli_answer txm_register_own(uint8_t *state, size_t len, const uint32_t *n)
{
    return gomxeli_txm_register(state, len, n[0], own_subject(n[0] % 128), (uint8_t)n[1]);
}

/* The calls but for registering. */
#define MODELLED(kind) \
    {#kind "_unregister", kind##_unregister, model_tx_unregister, {ENTRY}, 0}, \
    {#kind "_update", kind##_update, model_tx_update, {ENTRY, READINESS}, 0}, \
    {#kind "_pick", kind##_pick, model_tx_pick, {MASK, MTU}, 0}, \
    {#kind "_settle", kind##_settle, model_tx_settle, \
     {FRAME, READINESS, PRIORITY, FRAME_LENGTH, LAST_BYTE}, 2}, \
    NO_MODELLED

static const struct modelled txm_modelled[] = {
    {"txm_register", txm_register, model_txm_register, {ENTRY, SUBJECT, READINESS}, 0},
    MODELLED(txm),
};

static const struct modelled txr_modelled[] = {
    {"txr_register", txr_register, model_txr_register, {ENTRY, READINESS}, 0},
    MODELLED(txr),
};

static const uint32_t txm_spans[] = {128, 8192, 0}, txr_spans[] = {1, 0};

const struct tx_kind test_txm = {
    .modelled = {1062, txm_open, txm_modelled, &txm_model, 8191, txm_spans, true},
    .queue_at = 385,
    .open = txm_open,
    .enter = txm_register_own,
    .leave = txm_unregister,
    .update = txm_update,
    .pick = txm_pick,
    .settle = txm_settle,
};

const struct tx_kind test_txr = {
    .modelled = {677, txr_open, txr_modelled, &txr_model, 0, txr_spans, true},
    .queue_at = 0,
    .open = txr_open,
    .enter = txr_register,
    .leave = txr_unregister,
    .update = txr_update,
    .pick = txr_pick,
    .settle = txr_settle,
};

const struct tx_kind *tx;

#define TX_CALL(name, called) \
    gomxeli_answer name(uint8_t *state, size_t len, const uint32_t *n) \
    { \
        return tx->called(state, len, n); \
    }

TX_CALL(tx_open, open)
TX_CALL(tx_register, enter)
TX_CALL(tx_unregister, leave)
TX_CALL(tx_update, update)
TX_CALL(tx_pick, pick)
TX_CALL(tx_settle, settle)

/* ------------------------------------------------------------------------ */
/* Steps                                                                    */
/* ------------------------------------------------------------------------ */

/* Not a call: the stored wake mask, as the first field. */
static gomxeli_answer read_wake_mask(uint8_t *state, size_t len, const uint32_t *n)
{
    (void)len;
    (void)n;
    return (gomxeli_answer)state[tx->queue_at + WAKE_MASK_AT] << 16;
}

#define A(entry, readiness, wake) {tx_update, {entry, readiness}, 0, wake, 0, 0}
#define A_REFUSED(entry, readiness, number) {tx_update, {entry, readiness}, REFUSES(number)}
#define K(mask, mtu, entry, priority) {tx_pick, {mask, mtu}, 0, 1, entry, priority}
#define K_NOTHING(mask) {tx_pick, {mask, 8}, 0, 0, 0, 0}
#define K_REFUSED(mask, mtu, number) {tx_pick, {mask, mtu}, REFUSES(number)}
#define T(readiness, priority, length, last, entry, wake) \
    {tx_settle, {A_FRAME, readiness, priority, length, last}, 0, wake, entry, 0}
#define LAST(readiness, priority, entry, wake) T(readiness, priority, 8, ENDS, entry, wake)
#define MORE(readiness, priority, entry, wake) T(readiness, priority, 8, GOES_ON, entry, wake)
#define NONE(readiness, entry, wake) \
    {tx_settle, {NO_FRAME, readiness, 0, 0, 0}, 0, wake, entry, 0}
#define T_REFUSED(priority, length, number) \
    {tx_settle, {A_FRAME, 0, priority, length, ENDS}, REFUSES(number)}
#define NONE_REFUSED(number) {tx_settle, {NO_FRAME, 0, 0, 0, 0}, REFUSES(number)}
#define WAKE_MASK(mask) {read_wake_mask, {0}, 0, 0, mask, 0}
#define ALL 0xff

static const struct run cases[] = {
    {"document 01: a last frame, still ready: the other one is next",
     {OPEN(0), R(0, P(4), 0), R(1, P(4), 0), K(ALL, 8, 0, 4), LAST(P(4), 4, 0, 0), K(ALL, 8, 1, 4),
      END}},
    {"document 01: a frame that is not last: the same one is next",
     {OPEN(0), R(0, P(4), 0), R(1, P(4), 0), K(ALL, 8, 0, 4), MORE(P(4), 4, 0, 0), K(ALL, 8, 0, 4),
      END}},
    {"a fresh state has nothing to send, and no pick",
     {OPEN(0), WAKE_MASK(0), NONE_REFUSED(GOMXELI_NO_PICK), K_NOTHING(0), WAKE_MASK(0),
      K_NOTHING(ALL), WAKE_MASK(ALL), NONE_REFUSED(GOMXELI_NO_PICK), END}},
    {"the most urgent of the mask is picked, whoever came first",
     {OPEN(0), R(0, P(7), 0), R(1, P(3), 0), R(2, P(0), 0), K(ALL, 8, 2, 0), NONE(P(0), 2, 0),
      K(P(3) | P(7), 8, 1, 3), NONE(P(3), 1, 0), K(P(7), 8, 0, 7), NONE(P(7), 0, 0),
      K_NOTHING(P(1) | P(2) | P(6)), END}},
    {"an entry is picked for its most urgent priority alone",
     {OPEN(0), R(0, P(2) | P(5), 0), K_NOTHING(P(5)), K_NOTHING(ALL & ~P(2)), K(P(2), 8, 0, 2),
      LAST(P(5), 2, 0, 1), K_NOTHING(P(2)), K(P(5), 8, 0, 5), END}},
    {"a started one comes before finished ones of its priority",
     {OPEN(0), R(0, P(4), 0), K(ALL, 8, 0, 4), MORE(0, 4, 0, 0), R(1, P(4), 0), R(2, P(4), 0),
      A(0, P(4), 0), K(ALL, 8, 0, 4), LAST(P(4), 4, 0, 0), K(ALL, 8, 1, 4), NONE(0, 1, 0),
      K(ALL, 8, 2, 4), NONE(0, 2, 0), K(ALL, 8, 0, 4), END}},
    {"a more urgent finished one comes before a started one",
     {OPEN(0), R(0, P(4), 0), K(ALL, 8, 0, 4), MORE(P(4), 4, 0, 0), R(1, P(3), 0), K(ALL, 8, 1, 3),
      LAST(0, 3, 1, 0), K(ALL, 8, 0, 4), END}},
    {"a continued entry stays before other started ones",
     {OPEN(0), R(0, P(4), 0), R(1, P(4), 0), K(ALL, 8, 0, 4), MORE(0, 4, 0, 0), K(ALL, 8, 1, 4),
      MORE(P(4), 4, 1, 0), A(0, P(4), 0), K(ALL, 8, 1, 4), MORE(P(4), 4, 1, 0), K(ALL, 8, 1, 4),
      LAST(P(4), 4, 1, 0), K(ALL, 8, 0, 4), LAST(P(4), 4, 0, 0), K(ALL, 8, 1, 4), END}},
    {"an entry that gave no frame is not passed over",
     {OPEN(0), R(0, P(4), 0), R(1, P(4), 0), K(ALL, 8, 0, 4), NONE(P(4), 0, 0), K(ALL, 8, 0, 4),
      NONE(P(4) | P(6), 0, 0), K(ALL, 64, 0, 4), END}},
    {"an entry that gave no frame and is not ready leaves",
     {OPEN(0), R(0, P(4), 0), R(1, P(4), 0), K(ALL, 8, 0, 4), NONE(0, 0, 0), K(ALL, 8, 1, 4),
      NONE(0, 1, 0), K_NOTHING(ALL), END}},
    {"an update that leaves the most urgent priority does not move",
     {OPEN(0), R(0, P(4), 0), R(1, P(4), 0), A(0, P(4), 0), A(0, ALL & ~0x0fu, 0), K(ALL, 8, 0, 4),
      END}},
    {"an update to another queue, and back again, moves to the back",
     {OPEN(0), R(0, P(4), 0), R(1, P(4), 0), R(2, P(5), 0), A(0, P(5), 0), A(0, P(4), 0),
      K(ALL, 8, 1, 4), NONE(0, 1, 0), K(ALL, 8, 0, 4), NONE(P(5), 0, 1), K(P(5), 8, 2, 5), END}},
    {"an update to nothing leaves, one to something comes to the back",
     {OPEN(0), R(0, P(4), 0), R(1, P(4), 0), A(0, 0, 0), K(ALL, 8, 1, 4), NONE(P(4), 1, 0),
      A(0, P(4), 1), K(ALL, 8, 1, 4), NONE(0, 1, 0), K(ALL, 8, 0, 4), END}},
    {"entries wake by the stored mask",
     {OPEN(0), R(0, P(1), 0), U(0, 0), K_NOTHING(P(1) | P(4)), R(0, P(1), 1), R(1, P(2) | P(4), 0),
      R(2, 0, 0), A(2, P(4), 1), A(2, P(4), 0), A(2, P(5), 0), A(2, P(4) | P(5), 1), A(2, 0, 0),
      R(3, P(0) | P(1), 0), R(4, P(1) | P(2), 1), END}},
    {"an empty mask keeps the stored one, another takes its place",
     {OPEN(0), K_NOTHING(P(1)), K_NOTHING(0), WAKE_MASK(P(1)), R(0, P(1), 1), U(0, 0),
      K_NOTHING(P(2)), WAKE_MASK(P(2)), R(0, P(1), 0), K_NOTHING(0), WAKE_MASK(P(2)),
      R(1, P(2), 1), END}},
    {"a pick that names an entry stores no wake mask, nor does a frame",
     {OPEN(0), K_NOTHING(P(7)), R(0, P(4), 0), K(P(4), 8, 0, 4), WAKE_MASK(P(7)),
      MORE(P(4), 4, 0, 0), WAKE_MASK(P(7)), K(P(4), 8, 0, 4), LAST(P(4), 4, 0, 0),
      WAKE_MASK(P(7)), K(P(4), 64, 0, 4), NONE(P(4), 0, 0), WAKE_MASK(P(4)), END}},
    {"without frame the stored mask wakes, and the pick's is stored after that",
     {OPEN(0), K_NOTHING(P(5)), R(0, P(4), 0), K(P(3) | P(4), 8, 0, 4), NONE(P(3), 0, 0),
      WAKE_MASK(P(3) | P(4)), K_NOTHING(P(5)), K(P(3), 8, 0, 3), NONE(P(5), 0, 1),
      WAKE_MASK(P(3)), A(0, P(3), 1), END}},
    {"a last frame wakes in the same queue, since the entry left it first",
     {OPEN(0), K_NOTHING(P(4)), R(0, P(4), 1), K(ALL, 8, 0, 4), LAST(P(4), 4, 0, 1),
      K(ALL, 8, 0, 4), LAST(P(3), 4, 0, 0), K(ALL, 8, 0, 3), LAST(0, 3, 0, 0), END}},
    {"another frame wakes where the queue is another: finished to started, once",
     {OPEN(0), K_NOTHING(P(4)), R(0, P(4), 1), K(ALL, 8, 0, 4), MORE(P(4), 4, 0, 1),
      K(ALL, 8, 0, 4), MORE(P(4), 4, 0, 0), K(ALL, 8, 0, 4), LAST(P(4), 4, 0, 1), END}},
    {"a frame may leave the entry ready elsewhere, and its transfer started",
     {OPEN(0), R(0, P(4), 0), R(1, P(4), 0), K(ALL, 8, 0, 4), MORE(P(2) | P(4), 4, 0, 0),
      K(ALL, 8, 0, 2), LAST(P(4), 2, 0, 0), K(ALL, 8, 0, 4), LAST(P(4), 4, 0, 0),
      K(ALL, 8, 1, 4), END}},
    {"the end of a transfer is the end of that of its priority alone",
     {OPEN(0), R(0, P(4), 0), K(ALL, 8, 0, 4), MORE(P(2), 4, 0, 0), K(ALL, 8, 0, 2),
      MORE(P(2), 2, 0, 0), K(ALL, 8, 0, 2), LAST(P(2), 2, 0, 0), R(1, P(2), 0), R(2, P(4), 0),
      K(ALL, 8, 0, 2), NONE(P(4), 0, 0), K(P(4), 8, 0, 4), LAST(P(4), 4, 0, 1), K(P(4), 8, 2, 4),
      END}},
    {"no frame leaves what is started",
     {OPEN(0), R(0, P(4), 0), K(ALL, 8, 0, 4), MORE(P(4), 4, 0, 0), K(ALL, 8, 0, 4),
      NONE(0, 0, 0), R(1, P(4), 1), A(0, P(4), 1), K(ALL, 8, 0, 4), END}},
    {"registered anew, nothing is started",
     {OPEN(0), R(0, P(4), 0), K(ALL, 8, 0, 4), MORE(P(4), 4, 0, 0), U(0, 0), R(1, P(4), 0),
      R(0, P(4), 0), K(ALL, 8, 1, 4), END}},
    {"a removal leaves the others in order",
     {OPEN(0), R(0, P(4), 0), R(1, P(4), 0), R(2, P(4), 0), U(1, 0), K(ALL, 8, 0, 4),
      LAST(0, 4, 0, 0), K(ALL, 8, 2, 4), LAST(0, 4, 2, 0), U(0, 0), U(2, 0), K_NOTHING(ALL), END}},
};

static const struct run refused_cases[] = {
    {"while a pick is open",
     {OPEN(0), R(0, P(4), 0), R(1, P(4), 0), K(P(4), 8, 0, 4), R_REFUSED(2, ALL, GOMXELI_PICK_OPEN),
      U_REFUSED(0, GOMXELI_PICK_OPEN), U_REFUSED(1, GOMXELI_PICK_OPEN),
      A_REFUSED(0, P(4), GOMXELI_PICK_OPEN), A_REFUSED(1, 0, GOMXELI_PICK_OPEN),
      K_REFUSED(P(4), 8, GOMXELI_PICK_OPEN), K_REFUSED(0, 64, GOMXELI_PICK_OPEN),
      LAST(P(4), 4, 0, 0), K(ALL, 64, 1, 4), OPEN(0), NONE_REFUSED(GOMXELI_NO_PICK),
      K_NOTHING(ALL), END}},
    {"frames that are none of the pick's; it stays open",
     {OPEN(0), R(0, P(4), 0), K(ALL, 8, 0, 4), T_REFUSED(4, 0, GOMXELI_BAD_FRAME),
      T_REFUSED(4, 9, GOMXELI_BAD_FRAME), T_REFUSED(4, 64, GOMXELI_BAD_FRAME),
      T_REFUSED(4, 256 + 8, GOMXELI_BAD_FRAME), T_REFUSED(4, UINT32_MAX, GOMXELI_BAD_FRAME),
      T_REFUSED(3, 8, GOMXELI_BAD_FRAME), T_REFUSED(5, 8, GOMXELI_BAD_FRAME),
      T_REFUSED(0, 8, GOMXELI_BAD_FRAME), T_REFUSED(8, 8, GOMXELI_RANGE),
      T_REFUSED(UINT32_MAX, 8, GOMXELI_RANGE), T_REFUSED(256 + 4, 8, GOMXELI_RANGE),
      T(P(4), 4, 8, ENDS, 0, 0), NONE_REFUSED(GOMXELI_NO_PICK), K(ALL, 8, 0, 4),
      T(P(4), 4, 1, ENDS, 0, 0), END}},
    {"lengths of the larger mtu",
     {OPEN(0), R(127, P(0), 0), K(ALL, 64, 127, 0), T_REFUSED(0, 0, GOMXELI_BAD_FRAME),
      T_REFUSED(0, 65, GOMXELI_BAD_FRAME), T_REFUSED(0, 256, GOMXELI_BAD_FRAME),
      T(P(0), 0, 64, ENDS, 127, 0), K(ALL, 64, 127, 0), T(P(0), 0, 9, GOES_ON, 127, 0),
      K(ALL, 64, 127, 0), T(P(0), 0, 63, GOES_ON, 127, 0), END}},
    {"an mtu other than 8 or 64",
     {OPEN(0), R(0, P(7), 0), K_REFUSED(ALL, 0, GOMXELI_RANGE), K_REFUSED(ALL, 1, GOMXELI_RANGE),
      K_REFUSED(ALL, 7, GOMXELI_RANGE), K_REFUSED(ALL, 9, GOMXELI_RANGE),
      K_REFUSED(ALL, 63, GOMXELI_RANGE), K_REFUSED(ALL, 65, GOMXELI_RANGE),
      K_REFUSED(ALL, 72, GOMXELI_RANGE), K_REFUSED(ALL, 256 + 8, GOMXELI_RANGE),
      K_REFUSED(ALL, 65536 + 64, GOMXELI_RANGE), K_REFUSED(ALL, 0x80000008u, GOMXELI_RANGE),
      K_REFUSED(ALL, UINT32_MAX, GOMXELI_RANGE), K_REFUSED(0, 9, GOMXELI_RANGE), WAKE_MASK(0),
      K(ALL, 8, 0, 7), K_REFUSED(ALL, 9, GOMXELI_RANGE), NONE(P(7), 0, 0), K(ALL, 64, 0, 7), END}},
    {"limits of the entry",
     {OPEN(0), R(0, 0, 0), R(127, P(7), 0), R_REFUSED(128, 0, GOMXELI_ENTRY_RANGE),
      R_REFUSED(256, 0, GOMXELI_ENTRY_RANGE), R_REFUSED(UINT32_MAX, 0, GOMXELI_ENTRY_RANGE),
      U_REFUSED(128, GOMXELI_ENTRY_RANGE), U_REFUSED(256, GOMXELI_ENTRY_RANGE),
      U_REFUSED(UINT32_MAX, GOMXELI_ENTRY_RANGE), A_REFUSED(128, 1, GOMXELI_ENTRY_RANGE),
      A_REFUSED(256, 1, GOMXELI_ENTRY_RANGE), A_REFUSED(UINT32_MAX, 1, GOMXELI_ENTRY_RANGE),
      A(0, P(0), 0), A(127, P(0), 0), U(0, 0), K(P(0), 8, 127, 0), END}},
    {"registered twice, removed twice",
     {OPEN(0), R(5, P(4), 0), R_REFUSED(5, P(4), GOMXELI_REGISTERED),
      R_REFUSED(5, 0, GOMXELI_REGISTERED), A_REFUSED(6, P(4), GOMXELI_NOT_REGISTERED),
      U_REFUSED(6, GOMXELI_NOT_REGISTERED), K(ALL, 8, 5, 4), NONE(0, 5, 0), U(5, 0),
      U_REFUSED(5, GOMXELI_NOT_REGISTERED), A_REFUSED(5, 0, GOMXELI_NOT_REGISTERED), R(5, 0, 0),
      END}},
    {"frames are told by any flag but 0, and what is no frame is not looked at",
     {OPEN(0),
      R(0, P(4), 0),
      K(ALL, 8, 0, 4),
      {tx_settle, {2, 0, 4, 9, ENDS}, REFUSES(GOMXELI_BAD_FRAME)},
      {tx_settle, {128, 0, 8, 8, ENDS}, REFUSES(GOMXELI_RANGE)},
      {tx_settle, {255, P(4), 4, 8, ENDS}, 0, 0, 0, 0},
      WAKE_MASK(0),
      K(P(4), 8, 0, 4),
      {tx_settle, {NO_FRAME, P(4), 8, 0, ENDS}, 0, 0, 0, 0},
      WAKE_MASK(P(4)),
      {tx_settle, {NO_FRAME, P(4), 8, 0, ENDS}, REFUSES(GOMXELI_NO_PICK)},
      K(P(4), 8, 0, 4),
      {tx_settle, {NO_FRAME, 0, UINT32_MAX, UINT32_MAX, 255}, 0, 0, 0, 0},
      END}},
};

/* A last byte ends a transfer by bit 6 alone: the other entry is next just then. */
static void test_last_bytes(void)
{
    static struct state state;
    state.len = tx->modelled.len;
    for (unsigned last = 0; last <= UINT8_MAX; last++) {
        const uint32_t entry[2][MOST_NUMBERS] = {{0, P(4)}, {1, P(4)}};
        const uint32_t any[MOST_NUMBERS] = {ALL, 8};
        const uint32_t frame[MOST_NUMBERS] = {A_FRAME, P(4), 4, 1 + last % 8, last};
        CHECK_DONE(tx_open(LENT(&state), any));
        CHECK_DONE(tx_register(LENT(&state), entry[0]));
        CHECK_DONE(tx_register(LENT(&state), entry[1]));
        CHECK_PARTS(tx_pick(LENT(&state), any), 0, 1, 0, 4);
        CHECK_DONE(tx_settle(LENT(&state), frame));
        CHECK_PARTS(tx_pick(LENT(&state), any), 0, 1, last / 64 % 2, 4);
    }
}

/* Of all readiness sets and masks: the lowest bit of the set, if the mask has it. */
static void test_sets(void)
{
    static struct state state;
    state.len = tx->modelled.len;
    for (unsigned set = 1; set <= UINT8_MAX; set++) {
        unsigned lowest = 0;
        while ((set >> lowest) % 2 == 0)
            lowest++;
        for (unsigned mask = 0; mask <= UINT8_MAX; mask++) {
            const uint32_t entry[MOST_NUMBERS] = {9, set};
            const uint32_t pick[MOST_NUMBERS] = {mask, 8};
            CHECK_DONE(tx_open(LENT(&state), pick));
            CHECK_DONE(tx_register(LENT(&state), entry));
            bool in_mask = (mask >> lowest) % 2 == 1;
            CHECK_PARTS(tx_pick(LENT(&state), pick), 0, in_mask, in_mask ? 9 : 0,
                        in_mask ? lowest : 0);
            CHECK(QUEUE_BYTE(&state, WAKE_MASK_AT) == (in_mask ? 0 : mask));
        }
    }
}

/* ------------------------------------------------------------------------ */
/* The bytes                                                                */
/* ------------------------------------------------------------------------ */

/* All 0 but for the list queue, whose nodes are alone. */
static void lay_opened(uint8_t *bytes)
{
    uint8_t *queue = bytes + tx->queue_at;
    memset(bytes, 0, tx->modelled.len);
    queue[0] = 16;
    queue[1] = 128;
    for (unsigned node = 0; node < 144; node++)
        memset(queue + 2 + 2 * node, (int)node, 2);
}

static void test_open(void)
{
    uint8_t opened[GOMXELI_TXM_LENGTH];
    lay_opened(opened);
    check_opening(&tx->modelled, opened);
}

static void lay_link(uint8_t *queue, unsigned node, unsigned next)
{
    queue[2 + 2 * node] = (uint8_t)next;
    queue[3 + 2 * next] = (uint8_t)node;
}

/* Sets, flags and masks by their places, over what says nothing. */
static void lay_entry(uint8_t *queue, unsigned entry, unsigned readiness, unsigned started)
{
    queue[290 + entry] = (uint8_t)readiness;
    queue[418 + entry] = (uint8_t)started;
    queue[546 + entry] = 1;
}

static void lay_masks(uint8_t *queue, unsigned wake_mask, unsigned pick_mask, unsigned mtu)
{
    queue[674] = (uint8_t)wake_mask;
    queue[675] = (uint8_t)pick_mask;
    queue[676] = (uint8_t)mtu;
}

/* What the tree of messages has: 5, then 3, each on its own subject. */
static void lay_subjects(uint8_t *bytes, unsigned count)
{
    bytes[0] = (uint8_t)count;
    lay_place(bytes, 0, 0, 5, own_subject(5));
    if (count > 1)
        lay_place(bytes, 0, 1, 3, own_subject(3));
}

#define STEP(called, ...) called(LENT(&state), (const uint32_t[MOST_NUMBERS]){__VA_ARGS__})
#define CHECK_BYTES() CHECK(memcmp(state.byte, expected, state.len) == 0)

/*
 * The very bytes that the calls leave. Priority 4's started queue is node 8, its
 * finished one node 9; entries 3 and 5 are nodes 19 and 21.
 */
static void test_bytes(void)
{
    static struct state state;
    static uint8_t expected[GOMXELI_TXM_LENGTH];
    bool has_tree = tx->queue_at > 0;
    uint8_t *queue = expected + tx->queue_at;
    state.len = tx->modelled.len;
    memset(state.byte, 0xa5, state.len);
    lay_opened(expected);
    CHECK_DONE(STEP(tx_open, 0));
    CHECK_BYTES();

    /* Nothing is found, the mask is stored; 3 and 5 come. */
    CHECK_DONE(STEP(tx_pick, 0x30, 64));
    CHECK_FLAG(STEP(tx_register, 3, P(4) | P(7)), 1);
    CHECK_FLAG(STEP(tx_register, 5, P(4)), 1);
    if (has_tree)
        lay_subjects(expected, 2);
    lay_link(queue, 9, 19);
    lay_link(queue, 19, 21);
    lay_link(queue, 21, 9);
    lay_entry(queue, 3, P(4) | P(7), 0);
    lay_entry(queue, 5, P(4), 0);
    lay_masks(queue, 0x30, 0, 0);
    CHECK_BYTES();

    /* A pick opens, and its first frame is sent: 3 is started. */
    CHECK_PARTS(STEP(tx_pick, 0x90, 64), 0, 1, 3, 4);
    lay_masks(queue, 0x30, 0x90, 64);
    CHECK_BYTES();
    CHECK_PARTS(STEP(tx_settle, A_FRAME, P(4) | P(6), 4, 64, GOES_ON), 0, 1, 3, 0);
    lay_link(queue, 9, 21);
    lay_link(queue, 8, 19);
    lay_link(queue, 19, 8);
    lay_entry(queue, 3, P(4) | P(6), P(4));
    lay_masks(queue, 0x30, 0x90, 0);
    CHECK_BYTES();

    /* No frame, nothing ready: 3 is in no queue, and the pick's mask is stored. */
    CHECK_PARTS(STEP(tx_pick, 0x10, 8), 0, 1, 3, 4);
    CHECK_PARTS(STEP(tx_settle, NO_FRAME, 0, 99, 99, 99), 0, 0, 3, 0);
    lay_link(queue, 8, 8);
    lay_link(queue, 19, 19);
    lay_entry(queue, 3, 0, P(4));
    lay_masks(queue, 0x10, 0x10, 0);
    CHECK_BYTES();

    /* Ready again, to the started queue; the last frame takes it behind 5. */
    CHECK_FLAG(STEP(tx_update, 3, P(4)), 1);
    CHECK_PARTS(STEP(tx_pick, 0xff, 8), 0, 1, 3, 4);
    CHECK_PARTS(STEP(tx_settle, A_FRAME, P(4), 4, 1, ENDS), 0, 1, 3, 0);
    lay_link(queue, 9, 21);
    lay_link(queue, 21, 19);
    lay_link(queue, 19, 9);
    lay_entry(queue, 3, P(4), 0);
    lay_masks(queue, 0x10, 0xff, 0);
    CHECK_BYTES();

    /* 3 leaves, and its sets stay; the place that its subject gave up is 255. */
    CHECK_DONE(STEP(tx_unregister, 3));
    lay_link(queue, 9, 21);
    lay_link(queue, 21, 9);
    lay_link(queue, 19, 19);
    queue[546 + 3] = 0;
    if (has_tree) {
        lay_subjects(expected, 1);
        lay_place(expected, 0, 1, 255, 65535);
    }
    CHECK_BYTES();
}

/*
 * Bytes that say nothing are neither tested nor changed: the sets of an entry that is
 * not registered, another flag that is set, the mask where no pick is open.
 */
static void test_silent_bytes(void)
{
    static struct state state;
    static uint8_t expected[GOMXELI_TXM_LENGTH];
    uint8_t *queue = expected + tx->queue_at;
    state.len = tx->modelled.len;
    lay_opened(expected);
    if (tx->queue_at > 0)
        memset(expected + 1, 0x77, 3 * 128);
    memset(queue + 290, 0x99, 2 * 128);
    queue[675] = 0xaa;
    memcpy(state.byte, expected, state.len);

    CHECK_DONE(STEP(tx_pick, 0, 8));
    CHECK_BYTES();
    CHECK_DONE(STEP(tx_register, 5, 0));
    if (tx->queue_at > 0)
        lay_subjects(expected, 1);
    lay_entry(queue, 5, 0, 0);
    CHECK_BYTES();

    /* A flag that is set stays, whatever it is. */
    QUEUE_BYTE(&state, 546 + 5) = 0x80;
    queue[546 + 5] = 0x80;
    CHECK_REFUSED(STEP(tx_register, 5, 0), GOMXELI_REGISTERED);
    CHECK_DONE(STEP(tx_update, 5, P(3)));
    CHECK_PARTS(STEP(tx_pick, P(3), 8), 0, 1, 5, 3);
    CHECK_PARTS(STEP(tx_settle, A_FRAME, P(3), 3, 8, GOES_ON), 0, 0, 5, 0);
    lay_link(queue, 6, 21);
    lay_link(queue, 21, 6);
    queue[290 + 5] = P(3);
    queue[418 + 5] = P(3);
    queue[675] = P(3);
    CHECK_BYTES();

    CHECK_DONE(STEP(tx_unregister, 5));
    lay_link(queue, 6, 6);
    lay_link(queue, 21, 21);
    queue[546 + 5] = 0;
    if (tx->queue_at > 0) {
        expected[0] = 0;
        lay_place(expected, 0, 0, 255, 65535);
    }
    CHECK_BYTES();
}

/* ------------------------------------------------------------------------ */
/* All entries                                                              */
/* ------------------------------------------------------------------------ */

/* All 128 of one priority send in turn, last frames alone, round and round. */
static void test_full(unsigned priority)
{
    static struct state state;
    state.len = tx->modelled.len;
    CHECK_DONE(STEP(tx_open, 0));
    for (unsigned e = 0; e < 128; e++)
        CHECK_DONE(STEP(tx_register, e, P(priority)));
    for (unsigned e = 0; e < 128; e++)
        CHECK_REFUSED(STEP(tx_register, e, P(priority)), GOMXELI_REGISTERED);
    for (unsigned i = 0; i < 3 * 128; i++) {
        CHECK_PARTS(STEP(tx_pick, ALL, 8), 0, 1, i % 128, priority);
        CHECK_PARTS(STEP(tx_settle, A_FRAME, P(priority), priority, 8, ENDS), 0, 0, i % 128, 0);
    }
    /* Transfers of two frames: the first one's entry is next, and then goes to the back. */
    for (unsigned i = 0; i < 2 * 128; i++) {
        unsigned last = i % 2 == 0 ? GOES_ON : ENDS;
        CHECK_PARTS(STEP(tx_pick, ALL, 8), 0, 1, i / 2, priority);
        CHECK_PARTS(STEP(tx_settle, A_FRAME, P(priority), priority, 8, last), 0, 0, i / 2, 0);
    }
    for (unsigned e = 0; e < 128; e++)
        CHECK_DONE(STEP(tx_unregister, e));
    CHECK_DONE(STEP(tx_pick, ALL, 8));
    for (unsigned at = 1; at < tx->queue_at; at++)
        CHECK(state.byte[at] == 255);
}

/* ------------------------------------------------------------------------ */
/* The header's examples                                                    */
/* ------------------------------------------------------------------------ */

static void test_message_example(void)
{
    static uint8_t txm[GOMXELI_TXM_LENGTH];
    gomxeli_txm_open(txm, sizeof txm);
    gomxeli_txm_register(txm, sizeof txm, 0, 100, 1 << 4);
    gomxeli_answer a = gomxeli_txm_pick(txm, sizeof txm, 0xff, 8);
    CHECK(gomxeli_number(a) == GOMXELI_ACCEPTED && gomxeli_what(a) == 1);
    CHECK(gomxeli_first(a) == 0 && gomxeli_second(a) == 4);
    CHECK_DONE(gomxeli_txm_settle(txm, sizeof txm, 1, 0, gomxeli_second(a), 8, 64));
}

static void test_response_example(void)
{
    static uint8_t txr[GOMXELI_TXR_LENGTH];
    gomxeli_txr_open(txr, sizeof txr);
    gomxeli_txr_register(txr, sizeof txr, 0, 0);
    gomxeli_txr_pick(txr, sizeof txr, 0x0f, 64);
    CHECK(gomxeli_what(gomxeli_txr_update(txr, sizeof txr, 0, 1 << 3)) == 1);
}

static void test_kind(const struct tx_kind *kind)
{
    tx = kind;
    seed_random(1);
    test_open();
    check_runs(cases, sizeof cases / sizeof cases[0], tx->modelled.len);
    check_runs(refused_cases, sizeof refused_cases / sizeof refused_cases[0], tx->modelled.len);
    test_last_bytes();
    test_sets();
    test_bytes();
    test_silent_bytes();
    test_full(0);
    test_full(7);
    test_tx_whole();
    check_sequences(&tx->modelled);
}

void test_tx(void)
{
    CHECK(GOMXELI_TXM_LENGTH == 1062 && GOMXELI_TXR_LENGTH == 677);
    CHECK(GOMXELI_TXM_ENTRY_MAX == 127 && GOMXELI_TXR_ENTRY_MAX == 127);
    test_message_example();
    test_response_example();
    test_kind(&test_txm);
    test_kind(&test_txr);
}
