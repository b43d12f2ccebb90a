#include "whole.h"

unsigned times_in(const uint8_t *tree, unsigned entry)
{
    unsigned times = 0;
    for (unsigned i = 0; i < count_of(tree); i++)
        if (entry_at(tree, i) == entry)
            times++;
    return times;
}

static bool fits(const uint8_t *tree, unsigned largest)
{
    for (unsigned i = 0; i < count_of(tree); i++)
        if (entry_at(tree, i) > 127 || subject_at(tree, i) > largest)
            return false;
    return true;
}

static bool is_ordered(const uint8_t *tree)
{
    for (unsigned i = 1; i < count_of(tree); i++)
        if (subject_at(tree, i - 1) > subject_at(tree, i))
            return false;
    return true;
}

bool whole_tree(const uint8_t *tree, unsigned largest)
{
    return count_of(tree) <= 128 && fits(tree, largest) && is_ordered(tree);
}

bool whole_walk(const uint8_t *tree, unsigned walk)
{
    return walk > 127 || times_in(tree, walk) > 0;
}

static bool has_each_entry_once(const uint8_t *tree)
{
    for (unsigned i = 0; i < count_of(tree); i++)
        if (times_in(tree, entry_at(tree, i)) != 1)
            return false;
    return true;
}

bool shares_no_subject(const uint8_t *tree)
{
    for (unsigned i = 0; i < count_of(tree); i++)
        for (unsigned j = i + 1; j < count_of(tree); j++)
            if (subject_at(tree, i) == subject_at(tree, j))
                return false;
    return true;
}

/* ------------------------------------------------------------------------ */
/* States of one tree                                                       */
/* ------------------------------------------------------------------------ */

/* The tree at 0, the walk at 385. */
bool whole_lb(const uint8_t *state, size_t len)
{
    return len == 389 && whole_tree(state, 8191) && has_each_entry_once(state) &&
           whole_walk(state, state[385]);
}

bool whole_req(const uint8_t *state, size_t len)
{
    return len == 385 && whole_tree(state, 511) && has_each_entry_once(state) &&
           shares_no_subject(state);
}
