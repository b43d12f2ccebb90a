#include "whole.h"

/* ------------------------------------------------------------------------ */
/* Lists                                                                    */
/* ------------------------------------------------------------------------ */

static unsigned next_node(const uint8_t *nodes, unsigned node)
{
    return nodes[2 * node];
}

static unsigned prev_node(const uint8_t *nodes, unsigned node)
{
    return nodes[2 * node + 1];
}

/* Every cycle closes both ways: each step leads to a node, and back from it. */
static bool closes_both_ways(const uint8_t *nodes, unsigned count)
{
    for (unsigned i = 0; i < count; i++) {
        unsigned next = next_node(nodes, i);
        unsigned prev = prev_node(nodes, i);
        if (next >= count || prev >= count)
            return false;
        if (prev_node(nodes, next) != i || next_node(nodes, prev) != i)
            return false;
    }
    return true;
}

/* How many nodes and how many classes the cycle through a node holds. */
struct cycle {
    unsigned nodes;
    unsigned classes;
};

/* Counts the cycle through the node, which closes, and marks its nodes seen. */
static struct cycle count_cycle(const uint8_t *nodes, unsigned classes, unsigned start, bool *seen)
{
    struct cycle cycle = {0, 0};
    unsigned node = start;
    do {
        seen[node] = true;
        cycle.nodes++;
        if (node < classes)
            cycle.classes++;
        node = next_node(nodes, node);
    } while (node != start);
    return cycle;
}

bool whole_cycles(const uint8_t *nodes, unsigned classes, unsigned entries)
{
    unsigned count = classes + entries;
    bool seen[256] = {false};
    if (!closes_both_ways(nodes, count))
        return false;
    for (unsigned i = 0; i < count; i++) {
        if (seen[i])
            continue;
        struct cycle cycle = count_cycle(nodes, classes, i, seen);
        bool one_class = cycle.classes == 1;
        bool lone_entry = cycle.classes == 0 && cycle.nodes == 1;
        if (!one_class && !lone_entry)
            return false;
    }
    return true;
}

void mark_class(const uint8_t *nodes, unsigned classes, unsigned cls, bool *marks)
{
    for (unsigned node = next_node(nodes, cls); node != cls; node = next_node(nodes, node))
        marks[node - classes] = true;
}

bool whole_mcq(const uint8_t *state, size_t len)
{
    if (len < 2)
        return false;
    unsigned classes = state[0];
    unsigned entries = state[1];
    if (classes < 1 || classes > 32 || entries > 224)
        return false;
    if (len != 2 + 2 * ((size_t)classes + entries))
        return false;
    return whole_cycles(state + 2, classes, entries);
}

/* ------------------------------------------------------------------------ */
/* Keys                                                                     */
/* ------------------------------------------------------------------------ */

/* The parts of a key queue's state. */
struct key_state {
    unsigned k_max;
    unsigned entries;
    const uint8_t *nodes;
    const uint8_t *words;
    const uint8_t *index;
};

/* Finds the parts; false where the sizes or the length are not a key queue's. */
static bool find_parts(const uint8_t *state, size_t len, struct key_state *parts)
{
    if (len < 4)
        return false;
    unsigned k_max = state[0] + 256u * state[1];
    unsigned classes = state[2];
    unsigned entries = state[3];
    if (k_max > 8191 || classes != 2 || entries > 222)
        return false;
    size_t index_end = 8 + 8 * (size_t)entries + k_max + 1;
    while (index_end % 4 != 3)
        index_end++;
    if (len != index_end)
        return false;
    parts->k_max = k_max;
    parts->entries = entries;
    parts->nodes = state + 4;
    parts->words = state + 8 + 2 * (size_t)entries;
    parts->index = state + 8 + 8 * (size_t)entries;
    return true;
}

/* The entry's key, with its value or without; no key at all: -1. */
static int key_of(const struct key_state *parts, unsigned entry)
{
    unsigned word = parts->words[2 * entry] + 256u * parts->words[2 * entry + 1];
    return word < 16384 ? (int)(word % 8192) : -1;
}

/* Index and keys agree: the index names the entries that have keys, and no other. */
static bool index_agrees(const struct key_state *parts)
{
    for (unsigned k = 0; k <= parts->k_max; k++)
        if (parts->index[k] < parts->entries && key_of(parts, parts->index[k]) != (int)k)
            return false;
    for (unsigned i = 0; i < parts->entries; i++) {
        int key = key_of(parts, i);
        if (key >= 0 && ((unsigned)key > parts->k_max || parts->index[key] != i))
            return false;
    }
    return true;
}

/* The free entries, those of class 1, are those without a key. */
static bool free_are_keyless(const struct key_state *parts)
{
    bool is_free[256] = {false};
    mark_class(parts->nodes, 2, 1, is_free);
    for (unsigned i = 0; i < parts->entries; i++)
        if (is_free[i] != (key_of(parts, i) < 0))
            return false;
    return true;
}

bool whole_iq(const uint8_t *state, size_t len)
{
    struct key_state parts;
    return find_parts(state, len, &parts) && whole_cycles(parts.nodes, 2, parts.entries) &&
           index_agrees(&parts) && free_are_keyless(&parts);
}
