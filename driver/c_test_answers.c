/* The header's functions on answers: fields, what they mean, and refusals in words. */
#include <string.h>

#include "c_test.h"

/* An answer with all bits of a field set and no others. */
static const gomxeli_answer number_bits = UINT64_C(0xff), what_bits = UINT64_C(0xff00),
                            first_bits = UINT64_C(0xffff0000),
                            second_bits = UINT64_C(0xffffffff00000000);

static void test_fields(void)
{
    CHECK(has_parts(number_bits, 0xff, 0, 0, 0));
    CHECK(has_parts(what_bits, 0, 0xff, 0, 0));
    CHECK(has_parts(first_bits, 0, 0, 0xffff, 0));
    CHECK(has_parts(second_bits, 0, 0, 0, 0xffffffff));
}

/* What reads a field is 0 where just the others are set, and whole where just it is. */
static void test_readers(void)
{
    CHECK(gomxeli_entry(first_bits) == 0xffff && gomxeli_entry(~first_bits) == 0);
    CHECK(gomxeli_subject(first_bits) == 0xffff && gomxeli_subject(~first_bits) == 0);
    CHECK(gomxeli_range_first(first_bits) == 0xffff && gomxeli_range_first(~first_bits) == 0);
    CHECK(gomxeli_byte(first_bits) == 0xff && gomxeli_byte(~first_bits) == 0);
    CHECK(gomxeli_range_last(second_bits) == 0xffff && gomxeli_range_last(~second_bits) == 0);
    CHECK(gomxeli_picked_priority(second_bits) == 0xff);
    CHECK(gomxeli_picked_priority(~second_bits) == 0);
    CHECK(gomxeli_value(second_bits) == 0xffffffff && gomxeli_value(~second_bits) == 0);
}

/* Each that says yes or no, on calls that answer both. */
static void test_flags(void)
{
    static uint8_t reg[GOMXELI_REG_LENGTH], img[GOMXELI_IMG_LENGTH];
    CHECK(gomxeli_accepted(gomxeli_reg_open(reg, sizeof reg, 1)));
    CHECK(!gomxeli_accepted(gomxeli_reg_open(reg, sizeof reg - 1, 1)));
    CHECK(gomxeli_wakes(gomxeli_reg_register(reg, sizeof reg, 0, 100)));
    CHECK(!gomxeli_wakes(gomxeli_reg_register(reg, sizeof reg, 1, 100)));
    CHECK(!gomxeli_wakes(gomxeli_reg_register(reg, sizeof reg, 1, 200)));
    CHECK(gomxeli_accepted(gomxeli_img_open(img, sizeof img)));
    CHECK(gomxeli_accepted(gomxeli_img_add_subject(img, sizeof img, 100)));
    CHECK(gomxeli_yes(gomxeli_img_has_subject(img, sizeof img, 100)));
    CHECK(!gomxeli_yes(gomxeli_img_has_subject(img, sizeof img, 101)));
    CHECK(!gomxeli_yes(gomxeli_img_has_subject(img, sizeof img, 8192)));
}

/* A poll's updates and a walk, by the names of the parts. */
static void test_poll_and_walk(void)
{
    static uint8_t reg[GOMXELI_REG_LENGTH];
    CHECK(gomxeli_accepted(gomxeli_reg_open(reg, sizeof reg, 1)));
    CHECK(gomxeli_accepted(gomxeli_reg_register(reg, sizeof reg, 3, 300)));
    CHECK(gomxeli_accepted(gomxeli_reg_register(reg, sizeof reg, 5, 300)));
    gomxeli_answer answer = gomxeli_reg_poll_pop(reg, sizeof reg);
    CHECK(gomxeli_update(answer) == GOMXELI_ADD && gomxeli_subject(answer) == 300);
    CHECK(gomxeli_update(gomxeli_reg_poll_pop(reg, sizeof reg)) == GOMXELI_NOTHING);
    CHECK(gomxeli_update(gomxeli_reg_poll_pop(reg, sizeof reg - 1)) == GOMXELI_NOTHING);
    CHECK(!gomxeli_some(gomxeli_reg_hub_push_start(reg, sizeof reg, 301)));
    CHECK(gomxeli_some(gomxeli_reg_hub_push_start(reg, sizeof reg, 300)));
    answer = gomxeli_reg_hub_push_next(reg, sizeof reg);
    CHECK(gomxeli_some(answer) && gomxeli_entry(answer) == 3 && gomxeli_more(answer));
    answer = gomxeli_reg_hub_push_next(reg, sizeof reg);
    CHECK(gomxeli_some(answer) && gomxeli_entry(answer) == 5 && !gomxeli_more(answer));
    answer = gomxeli_reg_hub_push_next(reg, sizeof reg);
    CHECK(!gomxeli_some(answer) && !gomxeli_more(answer));
    CHECK(gomxeli_accepted(gomxeli_reg_unregister(reg, sizeof reg, 3)));
    CHECK(gomxeli_accepted(gomxeli_reg_unregister(reg, sizeof reg, 5)));
    answer = gomxeli_reg_poll_pop(reg, sizeof reg);
    CHECK(gomxeli_update(answer) == GOMXELI_REMOVE && gomxeli_range_first(answer) == 0 &&
          gomxeli_range_last(answer) == 8191);
}

/* A pick, its settlement, and the priorities' names. */
static void test_pick(void)
{
    static uint8_t txm[GOMXELI_TXM_LENGTH];
    const uint8_t low = GOMXELI_PRIORITY_SET_OF(GOMXELI_PRIORITY_LOW);
    CHECK(gomxeli_byte(gomxeli_priority_set_new_eq(GOMXELI_PRIORITY_LOW)) == low);
    CHECK(gomxeli_byte(gomxeli_priority_set_new_le(GOMXELI_PRIORITY_OPTIONAL)) ==
          GOMXELI_PRIORITY_SET_ALL);
    CHECK(GOMXELI_PRIORITY_EXCEPTIONAL == 0 && GOMXELI_PRIORITY_OPTIONAL == GOMXELI_PRIORITY_MAX);
    CHECK(gomxeli_accepted(gomxeli_txm_open(txm, sizeof txm)));
    CHECK(!gomxeli_some(
        gomxeli_txm_pick(txm, sizeof txm, GOMXELI_PRIORITY_SET_ALL, GOMXELI_MTU_CAN_CLASSIC)));
    CHECK(gomxeli_wakes(gomxeli_txm_register(txm, sizeof txm, 7, 100, low)));
    gomxeli_answer answer = gomxeli_txm_pick(txm, sizeof txm, low, GOMXELI_MTU_CAN_FD);
    CHECK(gomxeli_some(answer) && gomxeli_entry(answer) == 7);
    CHECK(gomxeli_picked_priority(answer) == GOMXELI_PRIORITY_LOW);
    answer = gomxeli_txm_settle(txm, sizeof txm, 1, 0, GOMXELI_PRIORITY_LOW, 64, 0xe0);
    CHECK(gomxeli_accepted(answer) && gomxeli_entry(answer) == 7 && !gomxeli_wakes(answer));
}

/* Each refusal has words of its own, and no other number has. */
static void test_texts(void)
{
    enum { LAST = GOMXELI_NO_CALL };
    const char *none = gomxeli_refusal_text(LAST + 1);
    for (unsigned a = 0; a <= LAST; a++) {
        CHECK(strcmp(gomxeli_refusal_text(a), none) != 0);
        for (unsigned b = 0; b < a; b++)
            CHECK(strcmp(gomxeli_refusal_text(a), gomxeli_refusal_text(b)) != 0);
    }
    CHECK(strcmp(gomxeli_refusal_text(255), none) == 0);
}

void test_answers(void)
{
    test_fields();
    test_readers();
    test_flags();
    test_poll_and_walk();
    test_pick();
    test_texts();
}
