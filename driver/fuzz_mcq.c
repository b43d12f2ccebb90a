/* Damaged input for the lists. */
#include "fuzz.h"

#include "random.h"
#include "state_mcq.h"
#include "whole.h"

enum { MOST_CLASSES = GOMXELI_MCQ_CLASSES_MAX, MOST_ENTRIES = GOMXELI_MCQ_ENTRIES_MAX };

/* ------------------------------------------------------------------------ */
/* The calls on plain lists                                                 */
/* ------------------------------------------------------------------------ */

static gomxeli_answer model_front(void *meaning, const uint32_t *n)
{
    const struct lists *lists = meaning;
    if (n[0] >= lists->classes)
        return refusal(GOMXELI_SIZE);
    const struct list *list = &lists->list[n[0]];
    return list->count == 0 ? done() : some_first(list->entry[0]);
}

static gomxeli_answer model_back(void *meaning, const uint32_t *n)
{
    const struct lists *lists = meaning;
    if (n[0] >= lists->classes)
        return refusal(GOMXELI_SIZE);
    const struct list *list = &lists->list[n[0]];
    return list->count == 0 ? done() : some_first(list->entry[list->count - 1]);
}

static gomxeli_answer model_is_empty(void *meaning, const uint32_t *n)
{
    const struct lists *lists = meaning;
    if (n[0] >= lists->classes)
        return refusal(GOMXELI_SIZE);
    return yes_or_no(lists->list[n[0]].count == 0);
}

static gomxeli_answer model_is_front(void *meaning, const uint32_t *n)
{
    const struct lists *lists = meaning;
    if (n[0] >= lists->entries)
        return refusal(GOMXELI_SIZE);
    unsigned cls = lists_class(lists, n[0]);
    bool at_front = cls != NO_CLASS && lists->list[cls].entry[0] == n[0];
    return at_front ? some_first(cls) : done();
}

static gomxeli_answer model_is_back(void *meaning, const uint32_t *n)
{
    const struct lists *lists = meaning;
    if (n[0] >= lists->entries)
        return refusal(GOMXELI_SIZE);
    unsigned cls = lists_class(lists, n[0]);
    const struct list *list = &lists->list[cls == NO_CLASS ? 0 : cls];
    bool at_back = cls != NO_CLASS && list->entry[list->count - 1] == n[0];
    return at_back ? some_first(cls) : done();
}

static gomxeli_answer model_remove(void *meaning, const uint32_t *n)
{
    struct lists *lists = meaning;
    if (n[0] >= lists->entries)
        return refusal(GOMXELI_SIZE);
    lists_remove(lists, n[0]);
    return done();
}

static gomxeli_answer model_move(struct lists *lists, const uint32_t *n,
                                 void (*push)(struct list *, unsigned))
{
    if (n[0] >= lists->classes || n[1] >= lists->entries)
        return refusal(GOMXELI_SIZE);
    lists_remove(lists, n[1]);
    push(&lists->list[n[0]], n[1]);
    return done();
}

static gomxeli_answer model_move_front(void *meaning, const uint32_t *n)
{
    return model_move(meaning, n, list_push_front);
}

static gomxeli_answer model_move_back(void *meaning, const uint32_t *n)
{
    return model_move(meaning, n, list_push_back);
}

/* ------------------------------------------------------------------------ */
/* Sizes and numbers                                                        */
/* ------------------------------------------------------------------------ */

static void draw_sizes(uint32_t *n)
{
    n[0] = 1 + random_size(MOST_CLASSES - 1);
    n[1] = random_size(MOST_ENTRIES);
}

static size_t length(const uint32_t *n)
{
    return gomxeli_mcq_length(n[0], n[1]);
}

/* Sizes that the length is right for, where there are such. */
static void draw_sizes_of(size_t len, uint32_t *n)
{
    uint32_t nodes = len >= 4 ? (uint32_t)(len - 2) / 2 : 1;
    uint32_t least = nodes > MOST_ENTRIES ? nodes - MOST_ENTRIES : 1;
    uint32_t most = nodes < MOST_CLASSES ? nodes : MOST_CLASSES;
    n[0] = least < most ? least + below(most - least + 1) : least;
    n[1] = nodes - n[0];
}

static void draw_open(const struct bytes *state, uint32_t *n)
{
    draw_sizes_of(state->len, n);
    if (one_in(4))
        n[0] = number_near(MOST_CLASSES + 1);
    if (one_in(4))
        n[1] = number_near(MOST_ENTRIES + 1);
}

static uint32_t number_near_class(const struct bytes *state)
{
    return number_near(state->len > 0 ? state->byte[0] : 0);
}

static uint32_t number_near_entry(const struct bytes *state)
{
    return number_near(state->len > 1 ? state->byte[1] : 0);
}

static void draw_class(const struct bytes *state, uint32_t *n)
{
    n[0] = number_near_class(state);
}

static void draw_entry(const struct bytes *state, uint32_t *n)
{
    n[0] = number_near_entry(state);
}

static void draw_both(const struct bytes *state, uint32_t *n)
{
    n[0] = number_near_class(state);
    n[1] = number_near_entry(state);
}

/* ------------------------------------------------------------------------ */
/* States                                                                   */
/* ------------------------------------------------------------------------ */

static struct lists plain_lists;

static gomxeli_answer open_plain(struct bytes *state, const uint32_t *n)
{
    if (n[0] < 1 || n[0] > MOST_CLASSES || n[1] > MOST_ENTRIES)
        return refusal(GOMXELI_SIZE);
    if (state->len != 2 + 2 * (size_t)(n[0] + n[1]))
        return refusal(GOMXELI_NOT_WHOLE);
    lists_clear(&plain_lists, n[0], n[1]);
    lists_lay(&plain_lists, state->byte);
    return done();
}

static void read_lists(const uint8_t *state, void *meaning)
{
    lists_read(state, meaning);
}

static void lay_lists(const void *meaning, uint8_t *state)
{
    lists_lay(meaning, state);
}

/* Entries in any order, each in one of the first few classes or in none. */
static void draw_meaning(const uint32_t *n, void *meaning)
{
    struct lists *lists = meaning;
    uint8_t order[MOST_ENTRIES];
    unsigned classes = 1 + below(n[0]);
    lists_clear(lists, n[0], n[1]);
    random_order(order, n[1]);
    for (unsigned i = 0; i < n[1]; i++) {
        unsigned cls = below(classes + 1);
        if (cls < classes)
            list_push_back(&lists->list[cls], order[i]);
    }
}

/* Cycles that close both ways and hold any number of classes. */
static void draw_cycles(uint8_t *nodes, unsigned count)
{
    uint8_t next[256];
    random_order(next, count);
    for (unsigned i = 0; i < count; i++) {
        nodes[2 * i] = next[i];
        nodes[2 * next[i] + 1] = (uint8_t)i;
    }
}

/* Every class empty and every entry in none. */
static void lay_lone(uint8_t *nodes, unsigned count)
{
    for (unsigned i = 0; i < count; i++)
        nodes[2 * i] = nodes[2 * i + 1] = (uint8_t)i;
}

/* Sizes that are not allowed, though the nodes would have numbers. */
static void draw_sizes_past(uint32_t *n)
{
    if (one_in(2)) {
        n[0] = one_in(4) ? 0 : MOST_CLASSES + 1 + random_size(30);
        n[1] = random_size(256 - n[0] < MOST_ENTRIES ? 256 - n[0] : MOST_ENTRIES);
    } else {
        n[1] = MOST_ENTRIES + 1 + random_size(30);
        n[0] = 1 + random_size(255 - n[1]);
    }
}

static void draw_bytes(struct bytes *state)
{
    uint32_t n[MOST_NUMBERS];
    uint8_t *nodes = state->byte + 2;
    bool past = one_in(4);
    if (past)
        draw_sizes_past(n);
    else
        draw_sizes(n);
    unsigned count = n[0] + n[1];
    state->len = 0;
    resize(state, 2 + 2 * (size_t)count);
    state->byte[0] = (uint8_t)n[0];
    state->byte[1] = (uint8_t)n[1];
    switch (past ? 0 : 1 + below(3)) {
    case 0:
        lay_lone(nodes, count);
        break;
    case 1:
        draw_cycles(nodes, count);
        break;
    case 2:
        for (unsigned i = 0; i < 2 * count; i++)
            nodes[i] = (uint8_t)below(count + 1);
        break;
    default:
        break;
    }
}

/* ------------------------------------------------------------------------ */
/* Sweeps                                                                   */
/* ------------------------------------------------------------------------ */

/* Openings at all sizes and one past, with the right length and with another. */
static void sweep_openings(void)
{
    static struct bytes state;
    for (uint32_t classes = 0; classes <= MOST_CLASSES + 1; classes++) {
        for (uint32_t entries = 0; entries <= MOST_ENTRIES + 1; entries++) {
            const uint32_t n[MOST_NUMBERS] = {classes, entries};
            if (!due())
                continue;
            state.len = 0;
            resize(&state, 2 + 2 * (size_t)(classes + entries) + (one_in(4) ? below(3) : 0));
            try_call(&kind_mcq, &kind_mcq.calls[0], SWEPT, &state, n);
        }
    }
}

/* All states of so few nodes, with links to each node and one past. */
static void sweep_small(unsigned classes, unsigned entries)
{
    static struct bytes state;
    unsigned count = classes + entries;
    uint64_t states = 1;
    for (unsigned i = 0; i < 2 * count; i++)
        states *= count + 1;
    for (uint64_t at = 0; at < states; at++) {
        struct call *call = &kind_mcq.calls[1 + at % (kind_mcq.call_count - 1)];
        uint64_t rest = at;
        if (!due())
            continue;
        state.len = 2 + 2 * (size_t)count;
        state.byte[0] = (uint8_t)classes;
        state.byte[1] = (uint8_t)entries;
        for (unsigned i = 0; i < 2 * count; i++, rest /= count + 1)
            state.byte[2 + i] = (uint8_t)(rest % (count + 1));
        try_drawn(&kind_mcq, call, SWEPT, &state);
    }
}

static void sweep(void)
{
    sweep_openings();
    sweep_small(1, 0);
    sweep_small(1, 1);
    sweep_small(2, 0);
    sweep_small(1, 2);
    sweep_small(2, 1);
    sweep_small(2, 2);
}

/* ------------------------------------------------------------------------ */
/* The kind                                                                 */
/* ------------------------------------------------------------------------ */

#define LISTS_REFUSE (REFUSED(GOMXELI_NOT_WHOLE) | REFUSED(GOMXELI_SIZE))
#define CALL(name, outcomes, model, draw) \
    {{"mcq_" #name, (outcomes) | LISTS_REFUSE, {0}}, mcq_##name, model, draw}

static struct call calls[] = {
    CALL(open, PLAIN, NULL, draw_open),
    CALL(front, PLAIN | SOME, model_front, draw_class),
    CALL(back, PLAIN | SOME, model_back, draw_class),
    CALL(is_empty, PLAIN | SOME, model_is_empty, draw_class),
    CALL(is_front, PLAIN | SOME, model_is_front, draw_entry),
    CALL(is_back, PLAIN | SOME, model_is_back, draw_entry),
    CALL(remove, PLAIN, model_remove, draw_entry),
    CALL(move_front, PLAIN, model_move_front, draw_both),
    CALL(move_back, PLAIN, model_move_back, draw_both),
};

static const struct model model = {whole_mcq, &plain_lists, read_lists, lay_lists};

struct kind kind_mcq = {
    .name = "mcq",
    .calls = calls,
    .call_count = sizeof calls / sizeof calls[0],
    .draw_sizes = draw_sizes,
    .length = length,
    .open = open_plain,
    .refuse = refuse_state,
    .model = &model,
    .draw_meaning = draw_meaning,
    .draw_bytes = draw_bytes,
    .sweep = sweep,
};
