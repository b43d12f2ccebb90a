/* Damaged input for loop-back message reception. */
#include <string.h>

#include "fuzz_tree.h"
#include "model_lb.h"
#include "random.h"
#include "state_lb.h"

enum { TREE_AT = 0, MOST_SUBJECT = GOMXELI_SUBJECT_ID_MAX };

/* ------------------------------------------------------------------------ */
/* Numbers                                                                  */
/* ------------------------------------------------------------------------ */

/* Often the walk's. */
static void draw_entry(const struct bytes *state, uint32_t *n)
{
    bool has_walk = state->len > LB_WALK_AT && state->byte[LB_WALK_AT] < REGISTRY_ENTRIES;
    n[0] = has_walk && one_in(2) ? state->byte[LB_WALK_AT] : draw_entry_of(state, TREE_AT);
}

static void draw_subject(const struct bytes *state, uint32_t *n)
{
    n[0] = draw_subject_of(state, TREE_AT, MOST_SUBJECT);
}

static void draw_registration(const struct bytes *state, uint32_t *n)
{
    draw_registering(state, MOST_SUBJECT, n);
}

/* ------------------------------------------------------------------------ */
/* States                                                                   */
/* ------------------------------------------------------------------------ */

static size_t length(const uint32_t *n)
{
    (void)n;
    return GOMXELI_LB_LENGTH;
}

static gomxeli_answer open_plain(struct bytes *state, const uint32_t *n)
{
    (void)n;
    if (state->len != 389)
        return refusal(GOMXELI_NOT_WHOLE);
    memset(state->byte, 0, state->len);
    state->byte[385] = 255;
    return done();
}

static void draw_meaning(const uint32_t *n, void *meaning)
{
    struct loop_back *loop_back = meaning;
    const struct tree *entries = &loop_back->entries;
    (void)n;
    loop_back_clear(loop_back);
    draw_tree(&loop_back->entries, MOST_SUBJECT, true);
    if (entries->count > 0 && one_in(2))
        loop_back->walk = entries->at[below(entries->count)].entry;
}

static void draw_bytes(struct bytes *state)
{
    static const uint16_t places[] = {TREE_AT, LB_WALK_AT};
    draw_whole(&kind_lb, NULL, state);
    spoil_tree(state, places, sizeof places / sizeof places[0], MOST_SUBJECT);
}

/* All states of few entries, with each walk. */
static void sweep_small(void)
{
    static struct loop_back small;
    enum { WALKS = SMALL_ENTRIES + 1 };
    for (uint32_t at = 0; at < SMALL_TREES * WALKS; at++) {
        small_tree(&small.entries, at / WALKS, MOST_SUBJECT);
        small.walk = at % WALKS < SMALL_ENTRIES ? at % WALKS : (unsigned)NO_WALK;
        sweep_laid(&kind_lb, &small);
    }
}

static void sweep(void)
{
    sweep_bytes(&kind_lb);
    sweep_small();
}

/* ------------------------------------------------------------------------ */
/* The kind                                                                 */
/* ------------------------------------------------------------------------ */

#define CALL(name, outcomes, model, draw) \
    {{"lb_" #name, (outcomes) | REFUSED(GOMXELI_NOT_WHOLE), {0}}, lb_##name, model, draw}

static struct call calls[] = {
    CALL(open, PLAIN, NULL, draw_no_numbers),
    CALL(register,
         PLAIN | REFUSED(GOMXELI_ENTRY_RANGE) | REFUSED(GOMXELI_RANGE) |
             REFUSED(GOMXELI_REGISTERED),
         model_lb_register, draw_registration),
    CALL(unregister, PLAIN | REFUSED(GOMXELI_ENTRY_RANGE) | REFUSED(GOMXELI_NOT_REGISTERED),
         model_lb_unregister, draw_entry),
    CALL(hub_push_start, PLAIN | SOME | REFUSED(GOMXELI_RANGE), model_lb_hub_push_start,
         draw_subject),
    CALL(hub_push_next, PLAIN | SOME, model_lb_hub_push_next, draw_no_numbers),
};

struct kind kind_lb = {
    .name = "lb",
    .calls = calls,
    .call_count = sizeof calls / sizeof calls[0],
    .draw_sizes = draw_no_sizes,
    .length = length,
    .open = open_plain,
    .refuse = refuse_state,
    .model = &lb_model,
    .draw_meaning = draw_meaning,
    .draw_bytes = draw_bytes,
    .sweep = sweep,
    .branches = lb_branches,
    .branch_count = LB_BRANCHES,
};
