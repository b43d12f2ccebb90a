#include "c_test_tree.h"

#include <inttypes.h>
#include <stdio.h>
#include <string.h>

#include "random.h"
#include "random_tx.h"
#include "state_tree.h"

void lay_place(uint8_t *bytes, unsigned tree, unsigned place, unsigned entry, unsigned subject)
{
    bytes[tree + 1 + 3 * place] = (uint8_t)entry;
    bytes[tree + 2 + 3 * place] = (uint8_t)(subject % 256);
    bytes[tree + 3 + 3 * place] = (uint8_t)(subject / 256);
}

/* ------------------------------------------------------------------------ */
/* A call and its model                                                     */
/* ------------------------------------------------------------------------ */

static void copy_state(struct state *to, const struct state *from)
{
    to->len = from->len;
    memcpy(to->byte, from->byte, from->len);
}

/* Whether answer and bytes are the model's. The state becomes what the model leaves. */
static bool agrees(const struct modelled_kind *kind, const struct modelled *call, bool whole,
                   struct state *state, const uint32_t *n)
{
    static struct state lent;
    gomxeli_answer expected = GOMXELI_NOT_WHOLE;
    copy_state(&lent, state);
    if (whole)
        expected = model_expect(kind->model, call->model, state->byte, n);
    return call->call(LENT(&lent), n) == expected && same_state(&lent, state);
}

/* The same on a state that is whole. */
static bool agrees_on_whole(const struct modelled_kind *kind, const struct modelled *call,
                            struct state *state, const uint32_t *n)
{
    return kind->model->whole(LENT(state)) && agrees(kind, call, true, state, n);
}

/* Checks, and says which call it was and two numbers if that does not hold. */
static void check_call(bool holds, const char *what, uint32_t first, uint32_t second)
{
    char text[100];
    snprintf(text, sizeof text, "%s: %" PRIu32 ", %" PRIu32, what, first, second);
    check(holds, __FILE__, __LINE__, text);
}

/* ------------------------------------------------------------------------ */
/* States                                                                   */
/* ------------------------------------------------------------------------ */

/* Both numbers are odd, so that no entry comes twice, nor a subject of 128 or a power above. */
static unsigned nth_entry(unsigned i)
{
    return i * 37 % REGISTRY_ENTRIES;
}

static unsigned nth_subject(unsigned i, uint32_t span)
{
    return i * 2021 % span;
}

/* Sets whose most urgent priorities meet, the empty one among them. */
static unsigned nth_set(unsigned i)
{
    return i * 53 % (UINT8_MAX + 1);
}

static uint32_t nth_number(enum number number, unsigned i, uint32_t span)
{
    switch (number) {
    case ENTRY:
        return nth_entry(i);
    case SUBJECT:
        return nth_subject(i, span);
    case READINESS:
        return nth_set(i);
    default:
        return 0;
    }
}

/* Registers the entry that comes in turn; true where that is accepted, as it is to be. */
static bool enter_nth(const struct modelled_kind *kind, struct state *state, unsigned i,
                      uint32_t span)
{
    const struct modelled *call = &kind->calls[0];
    uint32_t n[MOST_NUMBERS];
    for (unsigned j = 0; j < MOST_NUMBERS; j++)
        n[j] = nth_number(call->n[j], i, span);
    return agrees_on_whole(kind, call, state, n) &&
           call->call(LENT(state), n) == GOMXELI_REGISTERED;
}

void fill(const struct modelled_kind *kind, struct state *state, unsigned count, uint32_t span)
{
    state->len = kind->len;
    CHECK(gomxeli_number(kind->open(LENT(state), NULL)) == GOMXELI_ACCEPTED);
    for (unsigned i = 0; i < count; i++)
        CHECK(enter_nth(kind, state, i, span));
}

void fill_silent(struct state *state, unsigned count)
{
    size_t used = PLACES_AT + PLACE_LENGTH * (size_t)count;
    random_bytes(state->byte + used, TREE_LENGTH - used);
}

/* ------------------------------------------------------------------------ */
/* Opening                                                                  */
/* ------------------------------------------------------------------------ */

void check_opening(const struct modelled_kind *kind, const uint8_t *opened)
{
    static struct state state;
    state.len = kind->len;
    for (unsigned value = 0; value <= UINT8_MAX + 1; value++) {
        memset(state.byte, (int)value, state.len + 1);
        if (value > UINT8_MAX)
            random_bytes(state.byte, state.len);
        uint8_t after = state.byte[state.len];
        CHECK_DONE(kind->open(LENT(&state), NULL));
        CHECK(memcmp(state.byte, opened, state.len) == 0 && state.byte[state.len] == after);
    }
}

/* ------------------------------------------------------------------------ */
/* Numbers                                                                  */
/* ------------------------------------------------------------------------ */

static const uint32_t numbers[] = {
    0,     1,     2,      5,           7,           8,           9,           63,          64,
    65,    126,   127,    128,         129,         255,         256,         257,         264,
    510,   511,   512,    513,         639,         8190,        8191,        8192,        8193,
    16384, 32768, 65535,  65536,       65537,       65600,       65663,       66047,       73727,
    73728, 98304, 131072, 0x7fffffffu, 0x80000000u, 0x8000007fu, 0xfffffffeu, 0xffffffffu,
};

enum { NUMBERS = sizeof numbers / sizeof numbers[0] };

/* Whether the argument is a byte. */
static bool is_byte(enum number number)
{
    return number == LOOP_BACK || number == READINESS || number == MASK || number == FRAME ||
           number == LAST_BYTE;
}

static uint32_t draw_number(const struct modelled_kind *kind, enum number number,
                            const struct state *state, uint32_t span)
{
    const uint8_t *queue = tx_queue_in(LENT(state));
    switch (number) {
    case ENTRY:
        return one_in(8) ? number_near(REGISTRY_ENTRIES) : below(REGISTRY_ENTRIES);
    case SUBJECT:
        return one_in(8) ? number_near(kind->largest + 1) : below(span);
    case LOOP_BACK:
        return one_in(2) ? 0 : below(UINT8_MAX + 1);
    case READINESS:
        return random_set();
    case MASK:
        return random_mask();
    case MTU:
        return random_mtu();
    case FRAME:
        return random_frame();
    case PRIORITY:
        return random_priority(queue);
    case FRAME_LENGTH:
        return random_length(queue);
    case LAST_BYTE:
        return random_last();
    default:
        return 0;
    }
}

static void draw_numbers(const struct modelled_kind *kind, const struct modelled *call,
                         const struct state *state, uint32_t span, uint32_t *n)
{
    for (unsigned i = 0; i < MOST_NUMBERS; i++)
        n[i] = draw_number(kind, call->n[i], state, span);
}

static const struct modelled *draw_call(const struct modelled_kind *kind)
{
    unsigned count = 0;
    while (kind->calls[count].what != NULL)
        count++;
    return &kind->calls[below(count)];
}

static void check_call_numbers(const struct modelled_kind *kind, const struct modelled *call,
                               const struct state *whole)
{
    static struct state state;
    for (unsigned i = 0; i < NUMBERS * NUMBERS; i++) {
        const uint32_t turned[] = {numbers[i % NUMBERS], numbers[i / NUMBERS]};
        uint32_t n[MOST_NUMBERS];
        draw_numbers(kind, call, whole, 1, n);
        for (unsigned j = 0; j < 2; j++) {
            unsigned at = call->turned + j;
            n[at] = is_byte(call->n[at]) ? turned[j] % (UINT8_MAX + 1) : turned[j];
        }
        copy_state(&state, whole);
        check_call(agrees_on_whole(kind, call, &state, n), call->what, turned[0], turned[1]);
    }
}

void check_numbers(const struct modelled_kind *kind, const struct state *whole)
{
    for (const struct modelled *call = kind->calls; call->what != NULL; call++)
        check_call_numbers(kind, call, whole);
}

/* ------------------------------------------------------------------------ */
/* One byte changed                                                         */
/* ------------------------------------------------------------------------ */

static bool change_agrees(const struct modelled_kind *kind, const struct modelled *call, bool whole,
                          const struct state *changed, uint32_t span)
{
    static struct state state;
    uint32_t n[MOST_NUMBERS];
    draw_numbers(kind, call, changed, span, n);
    copy_state(&state, changed);
    return agrees(kind, call, whole, &state, n);
}

static bool all_agree(const struct modelled_kind *kind, const struct state *changed, uint32_t span)
{
    bool whole = kind->model->whole(LENT(changed));
    bool agree = true;
    if (kind->one_call_each)
        return change_agrees(kind, draw_call(kind), whole, changed, span);
    for (const struct modelled *call = kind->calls; call->what != NULL; call++)
        agree = change_agrees(kind, call, whole, changed, span) && agree;
    return agree;
}

void check_single_bytes(const struct modelled_kind *kind, const struct state *whole, uint32_t span)
{
    static struct state state;
    CHECK(kind->model->whole(LENT(whole)));
    copy_state(&state, whole);
    for (unsigned at = 0; at < whole->len; at++) {
        bool agree = true;
        for (unsigned value = 0; value <= UINT8_MAX; value++) {
            state.byte[at] = (uint8_t)value;
            agree = all_agree(kind, &state, span) && agree;
        }
        state.byte[at] = whole->byte[at];
        check_call(agree, "each value of a byte, in a state that begins with", at, whole->byte[0]);
    }
}

/* ------------------------------------------------------------------------ */
/* Sequences                                                                */
/* ------------------------------------------------------------------------ */

bool random_calls_agree(const struct modelled_kind *kind, struct state *state, uint32_t span,
                        unsigned count)
{
    bool agree = true;
    for (unsigned i = 0; i < count && agree; i++) {
        const struct modelled *call = draw_call(kind);
        uint32_t n[MOST_NUMBERS];
        draw_numbers(kind, call, state, span, n);
        agree = agrees_on_whole(kind, call, state, n);
    }
    return agree;
}

/* Each call but registering and removing. */
static bool other_calls_agree(const struct modelled_kind *kind, struct state *state, uint32_t span)
{
    bool agree = true;
    for (const struct modelled *call = kind->calls + 2; call->what != NULL && agree; call++) {
        uint32_t n[MOST_NUMBERS];
        draw_numbers(kind, call, state, span, n);
        agree = agrees_on_whole(kind, call, state, n);
    }
    return agree;
}

/* The entry is removed, or is not there, with other calls before, until no pick is open. */
static bool removal_agrees(const struct modelled_kind *kind, struct state *state, uint32_t span,
                           unsigned entry)
{
    const uint32_t n[MOST_NUMBERS] = {entry};
    bool agree = true;
    do {
        agree = other_calls_agree(kind, state, span) &&
                agrees_on_whole(kind, &kind->calls[1], state, n);
    } while (agree && kind->calls[1].call(LENT(state), n) == GOMXELI_PICK_OPEN);
    return agree && kind->calls[1].call(LENT(state), n) == GOMXELI_NOT_REGISTERED;
}

static bool removals_agree(const struct modelled_kind *kind, struct state *state, uint32_t span)
{
    uint8_t order[REGISTRY_ENTRIES];
    bool agree = true;
    random_order(order, REGISTRY_ENTRIES);
    for (unsigned i = 0; i < REGISTRY_ENTRIES && agree; i++)
        agree = removal_agrees(kind, state, span, order[i]);
    return agree;
}

void check_sequences(const struct modelled_kind *kind)
{
    enum { SEQUENCES = 10, CALLS = 600 };
    static struct state state;
    for (const uint32_t *span = kind->spans; *span > 0; span++) {
        for (unsigned i = 0; i < SEQUENCES; i++) {
            seed_random(i);
            fill(kind, &state, REGISTRY_ENTRIES, *span);
            check_call(random_calls_agree(kind, &state, *span, CALLS), "random calls", i, *span);
            check_call(removals_agree(kind, &state, *span), "removals", i, *span);
        }
    }
}

/* ------------------------------------------------------------------------ */
/* Breakings                                                                */
/* ------------------------------------------------------------------------ */

void count_129(struct state *state)
{
    state->byte[0] = 129;
}

void entry_128(struct state *state)
{
    state->byte[PLACES_AT] = 128;
}

void entry_twice(struct state *state)
{
    state->byte[PLACES_AT + PLACE_LENGTH] = state->byte[PLACES_AT];
}

/* The first subject is one above the second. */
void out_of_order(struct state *state)
{
    const uint8_t *second = state->byte + PLACES_AT + PLACE_LENGTH;
    lay_place(state->byte, 0, 0, state->byte[PLACES_AT], second[1] + 256u * second[2] + 1);
}
