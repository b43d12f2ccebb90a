/*
 * The stack that the exported calls take: each is made many times, in states that calls
 * drawn at random lead to, on a stack of its own that is painted before and looked at
 * afterwards. Prints the name of each call and the most bytes that it was seen to take, its
 * return address included.
 */
#define _XOPEN_SOURCE 700 /* ucontext.h */

#include <stdbool.h>
#include <stdio.h>
#include <stdlib.h>
#include <string.h>
#include <ucontext.h>

#include "calls.h"
#include "random.h"

/* ------------------------------------------------------------------------ */
/* A painted stack                                                          */
/* ------------------------------------------------------------------------ */

enum { STACK = 16384, PAINT = 0x5c, ABOVE = 1024, RETURN_ADDRESS = 8 };

static uint8_t stack[STACK];
static ucontext_t outside, inside;

static struct {
    call_function *call;
    uint8_t *bytes;
    size_t len;
    const uint32_t *n;
} at_hand;

/* Starts well below the top, so that no switch of stacks gets as deep as the call. */
static void make_call(void)
{
    volatile uint8_t above[ABOVE];
    above[0] = 0;
    at_hand.call(at_hand.bytes, at_hand.len, at_hand.n);
    above[ABOVE - 1] = above[0];
}

static void switch_stacks(void)
{
    bool done = getcontext(&inside) == 0;
    inside.uc_stack.ss_sp = stack;
    inside.uc_stack.ss_size = sizeof stack;
    inside.uc_link = &outside;
    makecontext(&inside, make_call, 0);
    if (!done || swapcontext(&outside, &inside) != 0) {
        perror("stack");
        exit(2);
    }
}

/* Makes a call on the painted stack; how many bytes at the low end keep their paint. */
static size_t left_by(call_function *call, uint8_t *bytes, size_t len, const uint32_t *n)
{
    size_t left = 0;
    at_hand.call = call;
    at_hand.bytes = bytes;
    at_hand.len = len;
    at_hand.n = n;
    memset(stack, PAINT, sizeof stack);
    switch_stacks();
    while (left < STACK && stack[left] == PAINT)
        left++;
    return left;
}

/* ------------------------------------------------------------------------ */
/* Calls that take nothing but their return address                         */
/* ------------------------------------------------------------------------ */

static gomxeli_answer no_call(uint8_t *state, size_t len, const uint32_t *n)
{
    (void)state, (void)len, (void)n;
    return 0;
}

/* A settlement has an argument on the stack, and so does this. */
static gomxeli_answer no_settlement(uint8_t *state, size_t len, uint8_t frame, uint8_t readiness,
                                    uint32_t priority, uint32_t length, uint8_t last)
{
    (void)state, (void)len, (void)frame, (void)readiness, (void)priority, (void)length, (void)last;
    return 0;
}

static gomxeli_answer settle_nothing(uint8_t *state, size_t len, const uint32_t *n)
{
    gomxeli_answer (*volatile settle)(uint8_t *, size_t, uint8_t, uint8_t, uint32_t, uint32_t,
                                      uint8_t) = no_settlement;
    return settle(state, len, (uint8_t)n[0], (uint8_t)n[1], n[2], n[3], (uint8_t)n[4]);
}

/* ------------------------------------------------------------------------ */
/* The exported calls                                                       */
/* ------------------------------------------------------------------------ */

/* So many numbers, from the least on. */
struct range {
    uint32_t least, count;
};

struct tried {
    const char *name;
    call_function *call;
    struct range n[MOST_NUMBERS];
    size_t left; /* the fewest painted bytes that it left */
};

/* The calls of a kind on bytes of a length; the first opens. */
struct kind {
    size_t len;
    struct tried *calls;
    unsigned count;
};

#define TRIED(name, ...) {"gomxeli_" #name, name, {__VA_ARGS__}, STACK}
#define KIND(length, calls) {length, calls, sizeof calls / sizeof calls[0]}

#define NONE {0, 1}
#define JUST(number) {number, 1}
#define ENTRY {0, 128}
#define SUBJECT {100, 9}
#define FLAG {0, 2}
#define BYTE {0, 256}

static struct tried reg_calls[] = {
    TRIED(reg_open, JUST(200)),
    TRIED(reg_register, ENTRY, SUBJECT),
    TRIED(reg_unregister, ENTRY),
    TRIED(reg_poll_pop, NONE),
    TRIED(reg_hub_push_start, SUBJECT),
    TRIED(reg_hub_push_next, NONE),
};

static struct tried lb_calls[] = {
    TRIED(lb_open, NONE),
    TRIED(lb_register, ENTRY, SUBJECT),
    TRIED(lb_unregister, ENTRY),
    TRIED(lb_hub_push_start, SUBJECT),
    TRIED(lb_hub_push_next, NONE),
};

static struct tried req_calls[] = {
    TRIED(req_open, NONE),
    TRIED(req_register, ENTRY, {0, 200}),
    TRIED(req_unregister, ENTRY),
    TRIED(req_poll_push, {0, 200}, FLAG),
};

static struct tried txm_calls[] = {
    TRIED(txm_open, NONE),
    TRIED(txm_register, ENTRY, {0, 200}, BYTE),
    TRIED(txm_unregister, ENTRY),
    TRIED(txm_update, ENTRY, BYTE),
    TRIED(txm_pick, BYTE, JUST(8)),
    TRIED(txm_settle, FLAG, BYTE, {0, 8}, {1, 8}, BYTE),
};

static struct tried txr_calls[] = {
    TRIED(txr_open, NONE),
    TRIED(txr_register, ENTRY, BYTE),
    TRIED(txr_unregister, ENTRY),
    TRIED(txr_update, ENTRY, BYTE),
    TRIED(txr_pick, BYTE, JUST(8)),
    TRIED(txr_settle, FLAG, BYTE, {0, 8}, {1, 8}, BYTE),
};

static struct tried img_calls[] = {
    TRIED(img_open, NONE),
    TRIED(img_add_subject, {0, 8192}),
    TRIED(img_remove_subject_range, {0, 4096}, {4096, 4096}),
    TRIED(img_has_subject, {0, 8192}),
};

static struct tried mcq_calls[] = {
    TRIED(mcq_open, JUST(32), JUST(224)),
    TRIED(mcq_front, {0, 32}),
    TRIED(mcq_back, {0, 32}),
    TRIED(mcq_is_empty, {0, 32}),
    TRIED(mcq_is_front, {0, 224}),
    TRIED(mcq_is_back, {0, 224}),
    TRIED(mcq_remove, {0, 224}),
    TRIED(mcq_move_front, {0, 32}, {0, 224}),
    TRIED(mcq_move_back, {0, 32}, {0, 224}),
};

static struct tried iq_calls[] = {
    TRIED(iq_open, JUST(255), JUST(222)),
    TRIED(iq_contains, BYTE),
    TRIED(iq_get, BYTE),
    TRIED(iq_get_mut, BYTE, BYTE),
    TRIED(iq_insert, BYTE, BYTE),
    TRIED(iq_remove, BYTE),
    TRIED(iq_front, NONE),
    TRIED(iq_back, NONE),
    TRIED(iq_enqueue_front, BYTE),
    TRIED(iq_enqueue_back, BYTE),
    TRIED(iq_dequeue, BYTE),
};

/* The calls without state, in the shape of the others. */
#define LEAF(name, ...) \
    static gomxeli_answer name(uint8_t *state, size_t len, const uint32_t *n) \
    { \
        (void)state, (void)len, (void)n; \
        return gomxeli_##name(__VA_ARGS__); \
    }

#define A16 (uint16_t)n[0]
#define A (uint8_t)n[0]
#define B (uint8_t)n[1]

#define LEAVES(each) \
    each(subject_id_new, A16) \
    each(service_id_new, A16) \
    each(node_id_new, A) \
    each(transfer_id_new, A) \
    each(priority_try_from_u8, A) \
    each(subject_id_from_u16_truncating, A16) \
    each(service_id_from_u16_truncating, A16) \
    each(node_id_from_u8_truncating, A) \
    each(transfer_id_from_u8_truncating, A) \
    each(priority_from_u8_truncating, A) \
    each(transfer_id_next, A) \
    each(priority_next, A) \
    each(priority_prev, A) \
    each(priority_set_new_eq, A) \
    each(priority_set_new_ge, A) \
    each(priority_set_new_le, A) \
    each(priority_set_new_gt, A) \
    each(priority_set_new_lt, A) \
    each(priority_set_contains, A, B) \
    each(priority_set_insert, A, B) \
    each(priority_set_remove, A, B) \
    each(priority_set_first, A) \
    each(priority_set_last, A) \
    each(priority_set_is_empty, A) \
    each(priority_set_complement, A) \
    each(priority_set_not, A) \
    each(priority_set_bitand, A, B) \
    each(priority_set_bitor, A, B) \
    each(priority_set_iter_next, A) \
    each(tail_byte_new, A, B, (uint8_t)n[2], (uint8_t)n[3]) \
    each(tail_byte_sot, A) \
    each(tail_byte_eot, A) \
    each(tail_byte_toggle, A) \
    each(tail_byte_transfer_id, A) \
    each(is_eot_frame, state, len)

LEAVES(LEAF)

#define LEAF_TRIED(name, ...) TRIED(name, BYTE, BYTE, BYTE, BYTE),

static struct tried leaf_calls[] = {LEAVES(LEAF_TRIED)};

static struct kind kinds[] = {
    KIND(GOMXELI_REG_LENGTH, reg_calls),
    KIND(GOMXELI_LB_LENGTH, lb_calls),
    KIND(GOMXELI_REQ_LENGTH, req_calls),
    KIND(GOMXELI_TXM_LENGTH, txm_calls),
    KIND(GOMXELI_TXR_LENGTH, txr_calls),
    KIND(GOMXELI_IMG_LENGTH, img_calls),
    KIND(GOMXELI_MCQ_LENGTH(32, 224), mcq_calls),
    KIND(GOMXELI_IQ_LENGTH(255, 222), iq_calls),
    KIND(GOMXELI_IMG_LENGTH, leaf_calls),
};

/* ------------------------------------------------------------------------ */
/* Trying them                                                              */
/* ------------------------------------------------------------------------ */

enum { ROUNDS = 5000, OPENED_ONCE_IN = 1000 };

static void make_tried(struct tried *tried, uint8_t *bytes, size_t len)
{
    uint32_t n[MOST_NUMBERS];
    for (unsigned i = 0; i < MOST_NUMBERS; i++)
        n[i] = tried->n[i].least + (tried->n[i].count > 0 ? below(tried->n[i].count) : 0);
    size_t left = left_by(tried->call, bytes, len, n);
    if (left < tried->left)
        tried->left = left;
}

/* Opens, then makes the kind's calls in a random order; now and then opens again. */
static void try_kind(struct kind *kind)
{
    static uint8_t bytes[GOMXELI_IQ_LENGTH(GOMXELI_IQ_KEY_MAX, GOMXELI_IQ_ENTRIES_MAX)];
    make_tried(&kind->calls[0], bytes, kind->len);
    for (unsigned round = 0; round < ROUNDS; round++) {
        unsigned at = one_in(OPENED_ONCE_IN) ? 0 : 1 + below(kind->count - 1);
        make_tried(&kind->calls[at], bytes, kind->len);
    }
}

static bool settles(const struct tried *tried)
{
    return tried->call == txm_settle || tried->call == txr_settle;
}

/* Against a call, made in the same way, that takes its return address alone. */
static void print_seen(const struct tried *tried)
{
    static const uint32_t n[MOST_NUMBERS];
    size_t least = left_by(settles(tried) ? settle_nothing : no_call, NULL, 0, n);
    printf("%s %lu\n", tried->name, (unsigned long)(least + RETURN_ADDRESS - tried->left));
}

int main(void)
{
    seed_random(1);
    for (unsigned i = 0; i < sizeof kinds / sizeof kinds[0]; i++) {
        try_kind(&kinds[i]);
        for (unsigned c = 0; c < kinds[i].count; c++)
            print_seen(&kinds[i].calls[c]);
    }
    return fflush(stdout) == 0 ? 0 : 2;
}
