#include "fuzz_tree.h"

#include <string.h>

#include "random.h"

/* ------------------------------------------------------------------------ */
/* Numbers                                                                  */
/* ------------------------------------------------------------------------ */

const uint8_t *some_place(const struct bytes *state, size_t tree)
{
    static const uint8_t none[PLACE_LENGTH] = {0};
    if (state->len < tree + TREE_LENGTH)
        return none;
    unsigned count = state->byte[tree] < REGISTRY_ENTRIES ? state->byte[tree] : REGISTRY_ENTRIES;
    return state->byte + tree + PLACES_AT + PLACE_LENGTH * (size_t)(count > 0 ? below(count) : 0);
}

uint32_t draw_entry_of(const struct bytes *state, size_t tree)
{
    return one_in(4) ? number_near(REGISTRY_ENTRIES) : some_place(state, tree)[0];
}

uint32_t draw_subject_of(const struct bytes *state, size_t tree, uint32_t largest)
{
    const uint8_t *place = some_place(state, tree);
    uint32_t subject = place[1] + 256u * place[2];
    switch (below(8)) {
    case 0:
        return number_near(largest + 1);
    case 1:
    case 2:
        return subject + below(3) - (subject > 0);
    default:
        return subject;
    }
}

void draw_registering(const struct bytes *state, uint32_t largest, uint32_t *n)
{
    n[0] = one_in(4) ? draw_entry_of(state, 0) : below(REGISTRY_ENTRIES);
    n[1] = draw_subject_of(state, 0, largest);
}

/* ------------------------------------------------------------------------ */
/* Trees                                                                    */
/* ------------------------------------------------------------------------ */

unsigned draw_near_subject(unsigned from, unsigned span, unsigned largest)
{
    if (one_in(8))
        return one_in(2) ? below(3) : largest - below(3);
    return (from + below(span)) % (largest + 1);
}

unsigned draw_count(void)
{
    return one_in(4) ? random_size(REGISTRY_ENTRIES) : below(20);
}

unsigned draw_span(unsigned count, unsigned largest)
{
    return 1 + below(one_in(4) ? largest : count + 1);
}

void draw_tree(struct tree *tree, unsigned largest, bool shared)
{
    uint8_t order[REGISTRY_ENTRIES];
    unsigned count = draw_count();
    unsigned from = below(largest + 1);
    unsigned span = draw_span(count, largest);
    random_order(order, REGISTRY_ENTRIES);
    tree->count = 0;
    for (unsigned j = 0; j < count; j++) {
        unsigned subject = draw_near_subject(from, span, largest);
        if (shared || !tree_has_subject(tree, subject))
            tree_insert(tree, order[j], subject);
    }
}

/* ------------------------------------------------------------------------ */
/* Near misses                                                              */
/* ------------------------------------------------------------------------ */

void spoil_byte(struct bytes *state, const uint16_t *places, unsigned count)
{
    static const uint8_t values[] = {0, 1, 2, 3, 126, 127, 128, 129, 130, 255};
    uint8_t *byte = &state->byte[places[below(count)]];
    switch (below(3)) {
    case 0:
        *byte = values[below(sizeof values)];
        break;
    case 1:
        (*byte)++;
        break;
    default:
        (*byte)--;
        break;
    }
}

static uint8_t *some_place_of(struct bytes *state, size_t tree)
{
    return state->byte + (some_place(state, tree) - state->byte);
}

void spoil_place(struct bytes *state, size_t tree, size_t other, uint32_t largest)
{
    uint8_t *place = some_place_of(state, tree);
    uint32_t subject = one_in(4) ? largest + below(2) : draw_subject_of(state, other, largest);
    if (one_in(2)) {
        place[0] = one_in(2) ? some_place(state, other)[0] : (uint8_t)number_near(REGISTRY_ENTRIES);
        return;
    }
    place[1] = (uint8_t)(subject % 256);
    place[2] = (uint8_t)(subject / 256);
}

void swap_places(struct bytes *state, size_t tree, size_t other)
{
    uint8_t *a = some_place_of(state, tree);
    uint8_t *b = some_place_of(state, other);
    uint8_t kept[PLACE_LENGTH];
    memcpy(kept, a, sizeof kept);
    memmove(a, b, sizeof kept);
    memcpy(b, kept, sizeof kept);
}

void spoil_lists(struct lists *lists, unsigned entry, uint8_t *bytes)
{
    unsigned cls = below(lists->classes + 1);
    lists_remove(lists, entry);
    if (cls < lists->classes)
        list_push_back(&lists->list[cls], entry);
    lists_lay(lists, bytes);
}

/* The links, next and prev of each node, come after the two sizes. */
static void link_nodes(uint8_t *bytes, unsigned node, unsigned next)
{
    bytes[2 + 2 * node] = (uint8_t)next;
    bytes[3 + 2 * next] = (uint8_t)node;
}

static void exchange_next(uint8_t *bytes, unsigned node, unsigned other)
{
    unsigned next = bytes[2 + 2 * node];
    link_nodes(bytes, node, bytes[2 + 2 * other]);
    link_nodes(bytes, other, next);
}

void spoil_links(uint8_t *bytes, unsigned nodes)
{
    unsigned near_classes = bytes[0] + 1u;
    if (one_in(2))
        bytes[2 + below(2 * nodes)] = (uint8_t)number_near(nodes);
    else
        exchange_next(bytes, below(one_in(2) ? near_classes : nodes),
                      below(one_in(2) ? near_classes : nodes));
}

void spoil_tree(struct bytes *state, const uint16_t *places, unsigned count, uint32_t largest)
{
    switch (below(4)) {
    case 0:
        spoil_byte(state, places, count);
        break;
    case 1:
        spoil_place(state, 0, 0, largest);
        break;
    case 2:
        swap_places(state, 0, 0);
        break;
    default:
        random_bytes(state->byte, state->len);
        state->byte[0] = (uint8_t)below(3);
        break;
    }
}

/* ------------------------------------------------------------------------ */
/* Sweeps                                                                   */
/* ------------------------------------------------------------------------ */

struct call *call_in_turn(const struct kind *kind, uint64_t at)
{
    return &kind->calls[1 + at % (kind->call_count - 1)];
}

void sweep_bytes(struct kind *kind)
{
    static struct bytes whole, state;
    uint32_t n[MOST_NUMBERS] = {0};
    uint64_t at = 0;
    for (size_t byte = 0; byte < kind->length(n); byte++) {
        kind->draw_sizes(n);
        draw_whole(kind, n, &whole);
        for (unsigned value = 0; value <= UINT8_MAX; value++, at++) {
            if (!due())
                continue;
            state = whole;
            state.byte[byte] = (uint8_t)value;
            try_drawn(kind, call_in_turn(kind, at), SWEPT, &state);
        }
    }
}

unsigned small_subject(unsigned i, unsigned largest)
{
    return i < 3 ? i : largest + 1 - SMALL_SUBJECTS + i;
}

unsigned digit(uint32_t *rest, unsigned base)
{
    unsigned value = *rest % base;
    *rest /= base;
    return value;
}

void small_tree(struct tree *tree, uint32_t at, unsigned largest)
{
    uint8_t order[SMALL_ENTRIES];
    random_order(order, SMALL_ENTRIES);
    tree->count = 0;
    for (unsigned i = 0; i < SMALL_ENTRIES; i++) {
        unsigned role = digit(&at, 1 + SMALL_SUBJECTS);
        if (role > 0)
            tree_insert(tree, order[i], small_subject(role - 1, largest));
    }
}

void sweep_laid(struct kind *kind, const void *meaning)
{
    enum { TIMES = 8 };
    static struct bytes state;
    for (unsigned i = 0; i < TIMES; i++) {
        if (!due())
            continue;
        state.len = 0;
        resize(&state, kind->length(NULL));
        kind->model->lay(meaning, state.byte);
        try_calls(kind, SWEPT, &state);
    }
}
