/* Numbers of every kind for the calls that have no state, and frames. */
#include "fuzz.h"

#include <inttypes.h>
#include <stdio.h>

#include "lent.h"
#include "random.h"

struct leaf {
    struct tally tally;
    gomxeli_answer (*make)(uint32_t a, uint32_t b);
    gomxeli_answer (*model)(const struct leaf *leaf, uint32_t a, uint32_t b);
    uint32_t limit; /* the largest first number that is in range */
    uint32_t mask;  /* the first number's type */
};

/* ------------------------------------------------------------------------ */
/* Identifiers                                                              */
/* ------------------------------------------------------------------------ */

static gomxeli_answer only_first(uint32_t first)
{
    return answer(0, 0, first, 0);
}

static gomxeli_answer model_new(const struct leaf *leaf, uint32_t a, uint32_t b)
{
    (void)b;
    return a <= leaf->limit ? some_first(a) : done();
}

static gomxeli_answer model_truncating(const struct leaf *leaf, uint32_t a, uint32_t b)
{
    (void)b;
    return only_first(a % (leaf->limit + 1));
}

static gomxeli_answer model_transfer_next(const struct leaf *leaf, uint32_t a, uint32_t b)
{
    (void)leaf, (void)b;
    return only_first(a % 32 == 31 ? 0 : a % 32 + 1);
}

static gomxeli_answer model_next(const struct leaf *leaf, uint32_t a, uint32_t b)
{
    (void)leaf, (void)b;
    if (a > 7)
        return refusal(GOMXELI_RANGE);
    return a == 7 ? done() : some_first(a + 1);
}

static gomxeli_answer model_prev(const struct leaf *leaf, uint32_t a, uint32_t b)
{
    (void)leaf, (void)b;
    if (a > 7)
        return refusal(GOMXELI_RANGE);
    return a == 0 ? done() : some_first(a - 1);
}

/* ------------------------------------------------------------------------ */
/* Sets: priority q is in the set where bit q is 1                          */
/* ------------------------------------------------------------------------ */

static bool is_in(uint32_t set, uint32_t q)
{
    return set >> q & 1;
}

/* The set of the priorities that a test with two numbers holds of. */
static uint32_t set_where(bool (*test)(uint32_t q, uint32_t a, uint32_t b), uint32_t a, uint32_t b)
{
    uint32_t set = 0;
    for (uint32_t q = 0; q < 8; q++)
        if (test(q, a, b))
            set |= 1u << q;
    return set;
}

/* A call that answers such a set, named after the test. */
#define SET_CALL(name, condition) \
    static bool test_##name(uint32_t q, uint32_t a, uint32_t b) \
    { \
        (void)q, (void)a, (void)b; \
        return condition; \
    } \
    static gomxeli_answer model_##name(const struct leaf *leaf, uint32_t a, uint32_t b) \
    { \
        (void)leaf; \
        return only_first(set_where(test_##name, a, b)); \
    }

/* The same, refused where the priority is out of range. */
#define SET_CALL_OF(name, priority, condition) \
    SET_CALL(name##_in_range, condition) \
    static gomxeli_answer model_##name(const struct leaf *leaf, uint32_t a, uint32_t b) \
    { \
        return (priority) > 7 ? refusal(GOMXELI_RANGE) : model_##name##_in_range(leaf, a, b); \
    }

SET_CALL_OF(new_eq, a, q == a)
SET_CALL_OF(new_ge, a, q >= a)
SET_CALL_OF(new_le, a, q <= a)
SET_CALL_OF(new_gt, a, q > a)
SET_CALL_OF(new_lt, a, q < a)
SET_CALL_OF(insert, b, is_in(a, q) || q == b)
SET_CALL_OF(remove, b, is_in(a, q) && q != b)
SET_CALL(complement, !is_in(a, q))
SET_CALL(bitand, is_in(a, q) && is_in(b, q))
SET_CALL(bitor, is_in(a, q) || is_in(b, q))

static gomxeli_answer model_contains(const struct leaf *leaf, uint32_t a, uint32_t b)
{
    (void)leaf;
    return b > 7 ? refusal(GOMXELI_RANGE) : yes_or_no(is_in(a, b));
}

static gomxeli_answer model_is_empty(const struct leaf *leaf, uint32_t a, uint32_t b)
{
    (void)leaf, (void)b;
    return yes_or_no(a == 0);
}

static gomxeli_answer model_first(const struct leaf *leaf, uint32_t a, uint32_t b)
{
    (void)leaf, (void)b;
    for (uint32_t q = 0; q < 8; q++)
        if (is_in(a, q))
            return some_first(q);
    return done();
}

static gomxeli_answer model_last(const struct leaf *leaf, uint32_t a, uint32_t b)
{
    (void)leaf, (void)b;
    for (uint32_t q = 8; q-- > 0;)
        if (is_in(a, q))
            return some_first(q);
    return done();
}

static gomxeli_answer model_iter_next(const struct leaf *leaf, uint32_t a, uint32_t b)
{
    gomxeli_answer first = model_first(leaf, a, b);
    if (gomxeli_what(first) == 0)
        return first;
    return answer(0, 1, gomxeli_first(first), a - (1u << gomxeli_first(first)));
}

/* ------------------------------------------------------------------------ */
/* The tail byte                                                            */
/* ------------------------------------------------------------------------ */

/* The four bytes of a are start, end, toggle and transfer identifier. */
static gomxeli_answer make_tail_byte_new(uint32_t a, uint32_t b)
{
    (void)b;
    return gomxeli_tail_byte_new((uint8_t)a, (uint8_t)(a >> 8), (uint8_t)(a >> 16),
                                 (uint8_t)(a >> 24));
}

static gomxeli_answer model_tail_byte_new(const struct leaf *leaf, uint32_t a, uint32_t b)
{
    (void)leaf, (void)b;
    return only_first(((a & 0xff) != 0 ? 128 : 0) + ((a >> 8 & 0xff) != 0 ? 64 : 0) +
                      ((a >> 16 & 0xff) != 0 ? 32 : 0) + (a >> 24) % 32);
}

static gomxeli_answer model_sot(const struct leaf *leaf, uint32_t a, uint32_t b)
{
    (void)leaf, (void)b;
    return yes_or_no(a / 128 % 2 == 1);
}

static gomxeli_answer model_eot(const struct leaf *leaf, uint32_t a, uint32_t b)
{
    (void)leaf, (void)b;
    return yes_or_no(a / 64 % 2 == 1);
}

static gomxeli_answer model_toggle(const struct leaf *leaf, uint32_t a, uint32_t b)
{
    (void)leaf, (void)b;
    return yes_or_no(a / 32 % 2 == 1);
}

/* A frame of a mod 80 bytes that ends in the low byte of b. */
static gomxeli_answer make_is_eot_frame(uint32_t a, uint32_t b)
{
    uint8_t frame[80];
    size_t len = a % 80;
    random_bytes(frame, sizeof frame);
    if (len > 0)
        frame[len - 1] = (uint8_t)b;
    gomxeli_answer got = gomxeli_is_eot_frame(lend(frame, len), len);
    bool guards_hold = take_back(frame);
    return guards_hold ? got : answer(255, 0, 0, 0);
}

static gomxeli_answer model_is_eot_frame(const struct leaf *leaf, uint32_t a, uint32_t b)
{
    (void)leaf;
    return a % 80 == 0 ? done() : some_first(b / 64 % 2);
}

/* ------------------------------------------------------------------------ */
/* The calls                                                                */
/* ------------------------------------------------------------------------ */

#define MAKE(name, ...) \
    static gomxeli_answer make_##name(uint32_t a, uint32_t b) \
    { \
        (void)b; \
        return gomxeli_##name(__VA_ARGS__); \
    }

#define A16 (uint16_t)a
#define A8 (uint8_t)a
#define B8 (uint8_t)b

MAKE(subject_id_new, A16)
MAKE(service_id_new, A16)
MAKE(node_id_new, A8)
MAKE(transfer_id_new, A8)
MAKE(priority_try_from_u8, A8)
MAKE(subject_id_from_u16_truncating, A16)
MAKE(service_id_from_u16_truncating, A16)
MAKE(node_id_from_u8_truncating, A8)
MAKE(transfer_id_from_u8_truncating, A8)
MAKE(priority_from_u8_truncating, A8)
MAKE(transfer_id_next, A8)
MAKE(priority_next, A8)
MAKE(priority_prev, A8)
MAKE(priority_set_new_eq, A8)
MAKE(priority_set_new_ge, A8)
MAKE(priority_set_new_le, A8)
MAKE(priority_set_new_gt, A8)
MAKE(priority_set_new_lt, A8)
MAKE(priority_set_contains, A8, B8)
MAKE(priority_set_insert, A8, B8)
MAKE(priority_set_remove, A8, B8)
MAKE(priority_set_first, A8)
MAKE(priority_set_last, A8)
MAKE(priority_set_is_empty, A8)
MAKE(priority_set_complement, A8)
MAKE(priority_set_not, A8)
MAKE(priority_set_bitand, A8, B8)
MAKE(priority_set_bitor, A8, B8)
MAKE(priority_set_iter_next, A8)
MAKE(tail_byte_sot, A8)
MAKE(tail_byte_eot, A8)
MAKE(tail_byte_toggle, A8)
MAKE(tail_byte_transfer_id, A8)

#define LEAF(name, outcomes, model, limit, mask) \
    {{#name, outcomes, {0}}, make_##name, model, limit, mask}
#define PRIORITY_REFUSED REFUSED(GOMXELI_RANGE)

static struct leaf leaves[] = {
    LEAF(subject_id_new, PLAIN | SOME, model_new, 8191, 0xffff),
    LEAF(service_id_new, PLAIN | SOME, model_new, 511, 0xffff),
    LEAF(node_id_new, PLAIN | SOME, model_new, 127, 0xff),
    LEAF(transfer_id_new, PLAIN | SOME, model_new, 31, 0xff),
    LEAF(priority_try_from_u8, PLAIN | SOME, model_new, 7, 0xff),
    LEAF(subject_id_from_u16_truncating, PLAIN, model_truncating, 8191, 0xffff),
    LEAF(service_id_from_u16_truncating, PLAIN, model_truncating, 511, 0xffff),
    LEAF(node_id_from_u8_truncating, PLAIN, model_truncating, 127, 0xff),
    LEAF(transfer_id_from_u8_truncating, PLAIN, model_truncating, 31, 0xff),
    LEAF(priority_from_u8_truncating, PLAIN, model_truncating, 7, 0xff),
    LEAF(transfer_id_next, PLAIN, model_transfer_next, 31, 0xff),
    LEAF(priority_next, PLAIN | SOME | PRIORITY_REFUSED, model_next, 7, 0xff),
    LEAF(priority_prev, PLAIN | SOME | PRIORITY_REFUSED, model_prev, 7, 0xff),
    LEAF(priority_set_new_eq, PLAIN | PRIORITY_REFUSED, model_new_eq, 7, 0xff),
    LEAF(priority_set_new_ge, PLAIN | PRIORITY_REFUSED, model_new_ge, 7, 0xff),
    LEAF(priority_set_new_le, PLAIN | PRIORITY_REFUSED, model_new_le, 7, 0xff),
    LEAF(priority_set_new_gt, PLAIN | PRIORITY_REFUSED, model_new_gt, 7, 0xff),
    LEAF(priority_set_new_lt, PLAIN | PRIORITY_REFUSED, model_new_lt, 7, 0xff),
    LEAF(priority_set_contains, PLAIN | SOME | PRIORITY_REFUSED, model_contains, 255, 0xff),
    LEAF(priority_set_insert, PLAIN | PRIORITY_REFUSED, model_insert, 255, 0xff),
    LEAF(priority_set_remove, PLAIN | PRIORITY_REFUSED, model_remove, 255, 0xff),
    LEAF(priority_set_first, PLAIN | SOME, model_first, 255, 0xff),
    LEAF(priority_set_last, PLAIN | SOME, model_last, 255, 0xff),
    LEAF(priority_set_is_empty, PLAIN | SOME, model_is_empty, 255, 0xff),
    LEAF(priority_set_complement, PLAIN, model_complement, 255, 0xff),
    LEAF(priority_set_not, PLAIN, model_complement, 255, 0xff),
    LEAF(priority_set_bitand, PLAIN, model_bitand, 255, 0xff),
    LEAF(priority_set_bitor, PLAIN, model_bitor, 255, 0xff),
    LEAF(priority_set_iter_next, PLAIN | SOME, model_iter_next, 255, 0xff),
    LEAF(tail_byte_new, PLAIN, model_tail_byte_new, 0xfffffffe, 0xffffffff),
    LEAF(tail_byte_sot, PLAIN | SOME, model_sot, 255, 0xff),
    LEAF(tail_byte_eot, PLAIN | SOME, model_eot, 255, 0xff),
    LEAF(tail_byte_toggle, PLAIN | SOME, model_toggle, 255, 0xff),
    LEAF(tail_byte_transfer_id, PLAIN, model_truncating, 31, 0xff),
    LEAF(is_eot_frame, PLAIN | SOME, model_is_eot_frame, 79, 0xff),
};

enum { LEAVES = sizeof leaves / sizeof leaves[0] };

static void try_leaf(struct leaf *leaf)
{
    uint32_t a = number_near(leaf->limit + 1) & leaf->mask;
    uint32_t b = (one_in(2) ? number_near(8) : (uint32_t)random_bits()) & 0xff;
    gomxeli_answer got = leaf->make(a, b);
    gomxeli_answer expected = leaf->model(leaf, a, b);
    if (!judge(&leaf->tally, got, expected, true) && failures_met() <= 10)
        fprintf(stderr,
                "fuzz: %s, numbers %" PRIu32 " %" PRIu32 "\n"
                "  answer %016" PRIx64 ", expected %016" PRIx64 "\n",
                leaf->tally.name, a, b, got, expected);
}

void try_leaves(void)
{
    for (unsigned i = 0; i < LEAVES; i++)
        try_leaf(&leaves[i]);
}

bool report_leaves(uint64_t least)
{
    bool enough = true;
    for (unsigned i = 0; i < LEAVES; i++)
        enough = report(&leaves[i].tally, least) && enough;
    return enough;
}
