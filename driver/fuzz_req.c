/* Damaged input for requests. */
#include <string.h>

#include "fuzz_tree.h"
#include "model_req.h"
#include "random.h"

enum { TREE_AT = 0, MOST_SERVICE = GOMXELI_SERVICE_ID_MAX };

/* ------------------------------------------------------------------------ */
/* Numbers                                                                  */
/* ------------------------------------------------------------------------ */

static void draw_entry(const struct bytes *state, uint32_t *n)
{
    n[0] = draw_entry_of(state, TREE_AT);
}

static void draw_registration(const struct bytes *state, uint32_t *n)
{
    draw_registering(state, MOST_SERVICE, n);
}

/* A service, and what says that a frame is a loop-back one: any byte but 0. */
static void draw_frame(const struct bytes *state, uint32_t *n)
{
    n[0] = draw_subject_of(state, TREE_AT, MOST_SERVICE);
    n[1] = one_in(2) ? 0 : below(UINT8_MAX + 1);
}

/* ------------------------------------------------------------------------ */
/* States                                                                   */
/* ------------------------------------------------------------------------ */

static size_t length(const uint32_t *n)
{
    (void)n;
    return GOMXELI_REQ_LENGTH;
}

static gomxeli_answer open_plain(struct bytes *state, const uint32_t *n)
{
    (void)n;
    if (state->len != 385)
        return refusal(GOMXELI_NOT_WHOLE);
    memset(state->byte, 0, state->len);
    return done();
}

static void draw_meaning(const uint32_t *n, void *meaning)
{
    (void)n;
    draw_tree(meaning, MOST_SERVICE, false);
}

static void draw_bytes(struct bytes *state)
{
    static const uint16_t places[] = {TREE_AT};
    draw_whole(&kind_req, NULL, state);
    spoil_tree(state, places, sizeof places / sizeof places[0], MOST_SERVICE);
}

/* All states of few entries. */
static void sweep_small(void)
{
    static struct tree small;
    for (uint32_t at = 0; at < SMALL_TREES; at++) {
        small_tree(&small, at, MOST_SERVICE);
        sweep_laid(&kind_req, &small);
    }
}

static void sweep(void)
{
    sweep_bytes(&kind_req);
    sweep_small();
}

/* ------------------------------------------------------------------------ */
/* The kind                                                                 */
/* ------------------------------------------------------------------------ */

#define CALL(name, outcomes, model, draw) \
    {{"req_" #name, (outcomes) | REFUSED(GOMXELI_NOT_WHOLE), {0}}, req_##name, model, draw}

static struct call calls[] = {
    CALL(open, PLAIN, NULL, draw_no_numbers),
    CALL(register,
         PLAIN | REFUSED(GOMXELI_ENTRY_RANGE) | REFUSED(GOMXELI_RANGE) |
             REFUSED(GOMXELI_REGISTERED) | REFUSED(GOMXELI_OCCUPIED),
         model_req_register, draw_registration),
    CALL(unregister, PLAIN | REFUSED(GOMXELI_ENTRY_RANGE) | REFUSED(GOMXELI_NOT_REGISTERED),
         model_req_unregister, draw_entry),
    CALL(poll_push, PLAIN | SOME | REFUSED(GOMXELI_RANGE), model_req_poll_push, draw_frame),
};

struct kind kind_req = {
    .name = "req",
    .calls = calls,
    .call_count = sizeof calls / sizeof calls[0],
    .draw_sizes = draw_no_sizes,
    .length = length,
    .open = open_plain,
    .refuse = refuse_state,
    .model = &req_model,
    .draw_meaning = draw_meaning,
    .draw_bytes = draw_bytes,
    .sweep = sweep,
    .branches = req_branches,
    .branch_count = REQ_BRANCHES,
};
