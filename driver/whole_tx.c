#include "whole.h"

/*
 * A transmit queue of 677 bytes: a list queue of 16 classes and 128 entries; at 290,
 * 418 and 546 the readiness set, the started set and the flag of each entry; at 675
 * and 676 the pick's mask and mtu.
 */
static bool is_registered(const uint8_t *queue, unsigned entry)
{
    return queue[546 + entry] != 0;
}

/*
 * The class that a registered entry belongs in, by its most urgent ready priority, or
 * 16 for none.
 */
static unsigned class_of(const uint8_t *queue, unsigned entry)
{
    unsigned priority = 0;
    if (!is_registered(queue, entry))
        return 16;
    while (priority < 8 && (queue[290 + entry] & 1u << priority) == 0)
        priority++;
    bool has_started = (queue[418 + entry] & 1u << priority) != 0;
    return 2 * priority + (priority < 8 && !has_started);
}

static bool is_bound(const uint8_t *queue, unsigned entry)
{
    return queue[2 + 2 * (16 + entry)] != 16 + entry;
}

/* Each entry stands in the class that it belongs in, or, if that is none, is unbound. */
static bool entries_agree(const uint8_t *queue)
{
    bool stands[16 + 1][128] = {{false}};
    for (unsigned c = 0; c < 16; c++)
        mark_class(queue + 2, 16, c, stands[c]);
    for (unsigned e = 0; e < 128; e++) {
        unsigned cls = class_of(queue, e);
        if (cls == 16 ? is_bound(queue, e) : !stands[cls][e])
            return false;
    }
    return true;
}

/* Whether a class of the mask is not empty. */
static bool has_masked(const uint8_t *queue, unsigned mask)
{
    for (unsigned c = 0; c < 16; c++)
        if ((mask & 1u << (c / 2)) != 0 && queue[2 + 2 * c] != c)
            return true;
    return false;
}

static bool pick_agrees(const uint8_t *queue)
{
    unsigned mtu = queue[676];
    return mtu == 0 || ((mtu == 8 || mtu == 64) && has_masked(queue, queue[675]));
}

static bool whole_queue(const uint8_t *queue)
{
    return queue[0] == 16 && queue[1] == 128 && whole_cycles(queue + 2, 16, 128) &&
           entries_agree(queue) && pick_agrees(queue);
}

bool whole_txr(const uint8_t *state, size_t len)
{
    return len == 677 && whole_queue(state);
}

/* An entry stands in the tree just if its flag is set, and once. */
static bool tree_agrees(const uint8_t *tree, const uint8_t *queue)
{
    for (unsigned e = 0; e < 128; e++)
        if (times_in(tree, e) != (is_registered(queue, e) ? 1 : 0))
            return false;
    return true;
}

/* The tree at 0, the transmit queue at 385. */
bool whole_txm(const uint8_t *state, size_t len)
{
    return len == 1062 && whole_queue(state + 385) && whole_tree(state, 8191) &&
           shares_no_subject(state) && tree_agrees(state, state + 385);
}
