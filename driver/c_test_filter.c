/*
 * Regular message reception and the filter image together: the updates that polls
 * hand out go into the image.
 */
#include "c_test.h"

#include <string.h>

enum { ENTRIES = GOMXELI_REG_ENTRY_MAX + 1, NOT_REGISTERED = -1 };

/* A registry, its filter, and which subject each entry has. */
static struct {
    uint8_t state[GOMXELI_REG_LENGTH];
    uint8_t image[GOMXELI_IMG_LENGTH];
    int subject[ENTRIES];
} node;

#define REG node.state, sizeof node.state
#define IMG node.image, sizeof node.image

static void open_node(unsigned slots)
{
    memset(&node, 0xa5, sizeof node);
    CHECK_DONE(gomxeli_reg_open(REG, slots));
    CHECK_DONE(gomxeli_img_open(IMG));
    for (unsigned e = 0; e < ENTRIES; e++)
        node.subject[e] = NOT_REGISTERED;
}

static void add_entry(unsigned entry, unsigned subject)
{
    CHECK(gomxeli_number(gomxeli_reg_register(REG, entry, subject)) == GOMXELI_ACCEPTED);
    node.subject[entry] = (int)subject;
}

static void remove_entry(unsigned entry)
{
    CHECK(gomxeli_number(gomxeli_reg_unregister(REG, entry)) == GOMXELI_ACCEPTED);
    node.subject[entry] = NOT_REGISTERED;
}

/* The filter passes just the subjects that have an entry. */
static bool filter_is_exact(void)
{
    bool wanted[GOMXELI_SUBJECT_ID_MAX + 1] = {false};
    for (unsigned e = 0; e < ENTRIES; e++)
        if (node.subject[e] != NOT_REGISTERED)
            wanted[node.subject[e]] = true;
    for (unsigned s = 0; s <= GOMXELI_SUBJECT_ID_MAX; s++)
        if (gomxeli_what(gomxeli_img_has_subject(IMG, s)) != wanted[s])
            return false;
    return true;
}

/*
 * Polls until there is nothing, as the header's example does, or too often; how many
 * updates there were.
 */
static unsigned poll_all(void)
{
    unsigned updates = 0;
    for (; updates <= ENTRIES + 1; updates++) {
        gomxeli_answer a = gomxeli_reg_poll_pop(REG);
        if (gomxeli_what(a) == 1)
            CHECK_DONE(gomxeli_img_add_subject(IMG, gomxeli_first(a)));
        else if (gomxeli_what(a) == 2)
            CHECK_DONE(gomxeli_img_remove_subject_range(IMG, gomxeli_first(a), gomxeli_second(a)));
        else
            break;
    }
    return updates;
}

/*
 * Of n entries with updates outstanding, polls hand out at most n + 1 before
 * 'nothing'. That many: some marked entries, each after a removed one, a removed
 * one after the last, and some waiting.
 */
static void test_most_updates(unsigned marked, unsigned waiting)
{
    open_node(2 * marked + 1);
    for (unsigned e = 0; e < 2 * marked + 1; e++)
        add_entry(e, 10 + 20 * e);
    CHECK(poll_all() == 2 * marked + 1);
    CHECK(filter_is_exact());
    for (unsigned e = 0; e < 2 * marked + 1; e += 2)
        remove_entry(e);
    for (unsigned i = 0; i < waiting; i++)
        add_entry(i <= marked ? 2 * i : marked + i, 5000 + 10 * i);
    CHECK(poll_all() == marked + waiting + 1);
    CHECK(filter_is_exact());
    CHECK(poll_all() == 0);
}

/* With all 128 entries: 63 marked and 65 waiting, 64 of these on entries used before. */
static void test_most_updates_of_all(void)
{
    open_node(256);
    for (unsigned e = 0; e < 127; e++)
        add_entry(e, 10 + 20 * e);
    CHECK(poll_all() == 127);
    for (unsigned e = 0; e < 127; e += 2)
        remove_entry(e);
    for (unsigned e = 0; e < 127; e += 2)
        add_entry(e, 5000 + e);
    add_entry(127, 4999);
    CHECK(poll_all() == 128 + 1);
    CHECK(filter_is_exact());
}

/* The updates are the clean-ups in the order of their marks, the last gap, the adds. */
static void test_order(void)
{
    open_node(9);
    add_entry(0, 100);
    add_entry(1, 200);
    add_entry(2, 300);
    add_entry(3, 400);
    add_entry(4, 500);
    CHECK(poll_all() == 5);
    add_entry(5, 450);
    remove_entry(2);
    remove_entry(0);
    remove_entry(4);
    CHECK_PARTS(gomxeli_reg_poll_pop(REG), 0, 2, 201, 399);
    CHECK_PARTS(gomxeli_reg_poll_pop(REG), 0, 2, 0, 199);
    CHECK_PARTS(gomxeli_reg_poll_pop(REG), 0, 2, 401, 8191);
    CHECK_PARTS(gomxeli_reg_poll_pop(REG), 0, 1, 450, 0);
    CHECK_NONE(gomxeli_reg_poll_pop(REG));
}

/* A frame is delivered as in the header's example: to each entry of its subject. */
static unsigned deliver(uint8_t *named, unsigned subject)
{
    unsigned count = 0;
    gomxeli_answer a = gomxeli_reg_hub_push_start(REG, subject);
    for (bool more = gomxeli_what(a) == 1; more && count < ENTRIES; more = gomxeli_second(a) == 1) {
        a = gomxeli_reg_hub_push_next(REG);
        named[count++] = (uint8_t)gomxeli_first(a);
    }
    return count;
}

static void test_delivery(void)
{
    uint8_t named[ENTRIES];
    open_node(9);
    add_entry(7, 100);
    add_entry(3, 200);
    add_entry(9, 100);
    poll_all();
    add_entry(0, 100);
    CHECK(deliver(named, 100) == 3);
    CHECK(named[0] == 7 && named[1] == 9 && named[2] == 0);
    CHECK(deliver(named, 200) == 1);
    CHECK(named[0] == 3);
    CHECK(deliver(named, 150) == 0);
}

/* Entries come and go by a fixed rule; after each round of polls the filter is exact. */
static void test_long_run(void)
{
    unsigned x = 1;
    open_node(200);
    for (unsigned i = 0; i < 4000; i++) {
        x = (x * 1103515245u + 12345u) & 0x7fffffffu;
        unsigned entry = x >> 8 & 127;
        if (node.subject[entry] == NOT_REGISTERED)
            add_entry(entry, (x >> 16) % 97 * (i % 3 == 0 ? 1 : 84));
        else
            remove_entry(entry);
        if (i % 13 == 0) {
            poll_all();
            CHECK(filter_is_exact());
        }
    }
}

void test_filter(void)
{
    for (unsigned marked = 0; marked <= 63; marked++)
        test_most_updates(marked, 0);
    test_most_updates(0, 1);
    test_most_updates(10, 5);
    test_most_updates(20, 21);
    test_most_updates_of_all();
    test_order();
    test_delivery();
    test_long_run();
}
