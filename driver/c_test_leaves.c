/* The calls without state, over all their numbers, and the cases of document 01. */
#include "c_test.h"

/* ------------------------------------------------------------------------ */
/* Identifiers                                                              */
/* ------------------------------------------------------------------------ */

/* A number in range is itself; one out of range is none, and truncated. */
#define CHECK_ID(new_call, truncating_call, value, largest) \
    do { \
        bool in_range = (value) <= (largest); \
        CHECK_PARTS(new_call(value), 0, in_range, in_range ? (value) : 0, 0); \
        CHECK_PARTS(truncating_call(value), 0, 0, (value) % ((largest) + 1), 0); \
    } while (0)

static void test_ids(void)
{
    for (unsigned i = 0; i <= UINT16_MAX; i++) {
        uint16_t v = (uint16_t)i;
        CHECK_ID(gomxeli_subject_id_new, gomxeli_subject_id_from_u16_truncating, v,
                 GOMXELI_SUBJECT_ID_MAX);
        CHECK_ID(gomxeli_service_id_new, gomxeli_service_id_from_u16_truncating, v,
                 GOMXELI_SERVICE_ID_MAX);
    }
    for (unsigned i = 0; i <= UINT8_MAX; i++) {
        uint8_t v = (uint8_t)i;
        CHECK_ID(gomxeli_node_id_new, gomxeli_node_id_from_u8_truncating, v, GOMXELI_NODE_ID_MAX);
        CHECK_ID(gomxeli_transfer_id_new, gomxeli_transfer_id_from_u8_truncating, v,
                 GOMXELI_TRANSFER_ID_MAX);
        CHECK_ID(gomxeli_priority_try_from_u8, gomxeli_priority_from_u8_truncating, v,
                 GOMXELI_PRIORITY_MAX);
        CHECK_PARTS(gomxeli_transfer_id_next(v), 0, 0, (v + 1u) % 32, 0);
    }
    CHECK_FIRST(gomxeli_subject_id_new(8191), 8191);
    CHECK_NONE(gomxeli_subject_id_new(8192));
    CHECK_PARTS(gomxeli_subject_id_from_u16_truncating(8192), 0, 0, 0, 0);
}

/* ------------------------------------------------------------------------ */
/* Priorities                                                               */
/* ------------------------------------------------------------------------ */

static void test_priority(uint8_t p)
{
    CHECK_PARTS(gomxeli_priority_next(p), 0, p < 7, p < 7 ? p + 1u : 0, 0);
    CHECK_PARTS(gomxeli_priority_prev(p), 0, p > 0, p > 0 ? p - 1u : 0, 0);
    CHECK_PARTS(gomxeli_priority_set_new_eq(p), 0, 0, 1u << p, 0);
    CHECK_PARTS(gomxeli_priority_set_new_ge(p), 0, 0, 256u - (1u << p), 0);
    CHECK_PARTS(gomxeli_priority_set_new_le(p), 0, 0, (2u << p) - 1u, 0);
    CHECK_PARTS(gomxeli_priority_set_new_gt(p), 0, 0, 256u - (2u << p), 0);
    CHECK_PARTS(gomxeli_priority_set_new_lt(p), 0, 0, (1u << p) - 1u, 0);
}

static void test_wrong_priority(uint8_t p)
{
    CHECK_REFUSED(gomxeli_priority_next(p), GOMXELI_RANGE);
    CHECK_REFUSED(gomxeli_priority_prev(p), GOMXELI_RANGE);
    CHECK_REFUSED(gomxeli_priority_set_new_eq(p), GOMXELI_RANGE);
    CHECK_REFUSED(gomxeli_priority_set_new_ge(p), GOMXELI_RANGE);
    CHECK_REFUSED(gomxeli_priority_set_new_le(p), GOMXELI_RANGE);
    CHECK_REFUSED(gomxeli_priority_set_new_gt(p), GOMXELI_RANGE);
    CHECK_REFUSED(gomxeli_priority_set_new_lt(p), GOMXELI_RANGE);
    CHECK_REFUSED(gomxeli_priority_set_contains(0xff, p), GOMXELI_RANGE);
    CHECK_REFUSED(gomxeli_priority_set_insert(0, p), GOMXELI_RANGE);
    CHECK_REFUSED(gomxeli_priority_set_remove(0xff, p), GOMXELI_RANGE);
}

static void test_member(uint8_t bits, uint8_t p)
{
    unsigned bit = 1u << p;
    CHECK_FLAG(gomxeli_priority_set_contains(bits, p), (bits & bit) != 0);
    CHECK_PARTS(gomxeli_priority_set_insert(bits, p), 0, 0, bits | bit, 0);
    CHECK_PARTS(gomxeli_priority_set_remove(bits, p), 0, 0, bits & ~bit, 0);
}

/* Walks over a set and gathers what it meets. */
static unsigned gathered(uint8_t bits)
{
    unsigned set = 0;
    gomxeli_answer step = gomxeli_priority_set_iter_next(bits);
    for (unsigned i = 0; i < 8 && gomxeli_what(step) == 1; i++) {
        set |= 1u << gomxeli_first(step);
        step = gomxeli_priority_set_iter_next((uint8_t)gomxeli_second(step));
    }
    return set;
}

static void test_set(uint8_t bits)
{
    unsigned first = 0, last = 7;
    while (first < 7 && (bits >> first & 1) == 0)
        first++;
    while (last > 0 && (bits >> last & 1) == 0)
        last--;
    bool some = bits != 0;
    CHECK_PARTS(gomxeli_priority_set_first(bits), 0, some, some ? first : 0, 0);
    CHECK_PARTS(gomxeli_priority_set_last(bits), 0, some, some ? last : 0, 0);
    CHECK_PARTS(gomxeli_priority_set_iter_next(bits), 0, some, some ? first : 0,
                some ? bits - (1u << first) : 0);
    CHECK(gathered(bits) == bits);
    CHECK_FLAG(gomxeli_priority_set_is_empty(bits), !some);
    CHECK_PARTS(gomxeli_priority_set_complement(bits), 0, 0, 255u - bits, 0);
    CHECK_PARTS(gomxeli_priority_set_not(bits), 0, 0, 255u - bits, 0);
}

static void test_priorities(void)
{
    for (unsigned p = 0; p <= UINT8_MAX; p++) {
        if (p <= GOMXELI_PRIORITY_MAX)
            test_priority((uint8_t)p);
        else
            test_wrong_priority((uint8_t)p);
    }
    for (unsigned bits = 0; bits <= UINT8_MAX; bits++) {
        test_set((uint8_t)bits);
        for (unsigned p = 0; p <= GOMXELI_PRIORITY_MAX; p++)
            test_member((uint8_t)bits, (uint8_t)p);
        for (unsigned other = 0; other <= UINT8_MAX; other++) {
            uint8_t a = (uint8_t)bits, b = (uint8_t)other;
            CHECK_PARTS(gomxeli_priority_set_bitand(a, b), 0, 0, bits & other, 0);
            CHECK_PARTS(gomxeli_priority_set_bitor(a, b), 0, 0, bits | other, 0);
        }
    }
}

/* ------------------------------------------------------------------------ */
/* The tail byte                                                            */
/* ------------------------------------------------------------------------ */

static void test_tail_byte(uint8_t byte)
{
    bool sot = byte / 128 % 2 == 1, eot = byte / 64 % 2 == 1, toggle = byte / 32 % 2 == 1;
    const uint8_t frame[3] = {(uint8_t)~byte, (uint8_t)~byte, byte};
    CHECK_FLAG(gomxeli_tail_byte_sot(byte), sot);
    CHECK_FLAG(gomxeli_tail_byte_eot(byte), eot);
    CHECK_FLAG(gomxeli_tail_byte_toggle(byte), toggle);
    CHECK_PARTS(gomxeli_tail_byte_transfer_id(byte), 0, 0, byte % 32u, 0);
    CHECK_PARTS(gomxeli_tail_byte_new(sot, eot, toggle, byte % 32), 0, 0, byte, 0);
    CHECK_FIRST(gomxeli_is_eot_frame(&byte, 1), eot);
    CHECK_FIRST(gomxeli_is_eot_frame(frame, 3), eot);
}

static void test_tail_bytes(void)
{
    const uint8_t ends = 64, goes_on = 191;
    for (unsigned byte = 0; byte <= UINT8_MAX; byte++)
        test_tail_byte((uint8_t)byte);
    /* Any other flag than 0 is set; an identifier is truncated. */
    CHECK_PARTS(gomxeli_tail_byte_new(255, 2, 128, 32), 0, 0, 224, 0);
    CHECK_PARTS(gomxeli_tail_byte_new(0, 0, 0, 255), 0, 0, 31, 0);
    /* Last byte 64 ends a transfer, 191 does not. */
    CHECK_FIRST(gomxeli_is_eot_frame(&ends, 1), 1);
    CHECK_FIRST(gomxeli_is_eot_frame(&goes_on, 1), 0);
    /* An empty frame has no last byte. */
    CHECK_NONE(gomxeli_is_eot_frame(NULL, 0));
    CHECK_NONE(gomxeli_is_eot_frame(&ends, 0));
}

/*
 * The tail bytes of whole transfers, frame by frame, by the Cyphal Specification's rule: start of
 * transfer on the first, end of transfer on the last, the toggle set on the first and turned over
 * on each that follows, and one transfer identifier. The same rows as in oracle/src/vectors.rs.
 */
static const struct {
    unsigned id, frames;
    uint8_t tail[11];
} transfers[] = {
    {0, 1, {0xe0}},
    {1, 1, {0xe1}},
    {2, 1, {0xe2}},
    {3, 1, {0xe3}},
    {31, 1, {0xff}},
    {0, 1, {0xe0}},
    {0, 2, {0xa0, 0x40}},
    {5, 3, {0xa5, 0x05, 0x65}},
    {1, 11, {0xa1, 0x01, 0x21, 0x01, 0x21, 0x01, 0x21, 0x01, 0x21, 0x01, 0x61}},
    {31, 4, {0xbf, 0x1f, 0x3f, 0x5f}},
};

/* A frame's tail byte is made of its parts and read back, and tells the end. */
static void test_frame(uint8_t tail, bool sot, bool eot, bool toggle, unsigned id)
{
    const uint8_t frame[2] = {(uint8_t)~tail, tail};
    CHECK_PARTS(gomxeli_tail_byte_new(sot, eot, toggle, (uint8_t)id), 0, 0, tail, 0);
    CHECK_FLAG(gomxeli_tail_byte_sot(tail), sot);
    CHECK_FLAG(gomxeli_tail_byte_eot(tail), eot);
    CHECK_FLAG(gomxeli_tail_byte_toggle(tail), toggle);
    CHECK_PARTS(gomxeli_tail_byte_transfer_id(tail), 0, 0, id, 0);
    CHECK_FIRST(gomxeli_is_eot_frame(frame, sizeof frame), eot);
}

static void test_transfers(void)
{
    for (unsigned i = 0; i < sizeof transfers / sizeof transfers[0]; i++)
        for (unsigned f = 0; f < transfers[i].frames; f++)
            test_frame(transfers[i].tail[f], f == 0, f + 1 == transfers[i].frames, f % 2 == 0,
                       transfers[i].id);
}

void test_leaves(void)
{
    test_ids();
    test_priorities();
    test_tail_bytes();
    test_transfers();
}
