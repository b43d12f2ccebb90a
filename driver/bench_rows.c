/* Rows: a call, the states that it is made in, and what it is given there. */
#include <stdio.h>
#include <stdlib.h>
#include <string.h>

#include "bench.h"
#include "random.h"
#include "state_tree.h"

bool is_quick;

const unsigned registry_counts[] = {0, 16, REGISTRY_ENTRIES};

unsigned nth_entry(unsigned i)
{
    return i * 37 % REGISTRY_ENTRIES;
}

const char *const three_places[PLACES] = {"first", "middle", "last", NULL};

unsigned index_of(enum place place, unsigned count)
{
    return place == FIRST ? 0 : place == LAST ? count - 1 : count / 2;
}

/* ------------------------------------------------------------------------ */
/* Scripts                                                                  */
/* ------------------------------------------------------------------------ */

void script_add(struct script *script, const char *name, call_function *call, const uint32_t *n)
{
    if (script->count == MOST_STEPS) {
        fprintf(stderr, "bench: too many steps\n");
        exit(1);
    }
    struct step *step = &script->step[script->count++];
    step->name = name;
    step->call = call;
    memcpy(step->n, n, sizeof step->n);
}

/* A step that is refused leads elsewhere. */
static void must_be_accepted(const struct row *row, const char *name, gomxeli_answer answer)
{
    if (gomxeli_number(answer) == GOMXELI_ACCEPTED)
        return;
    fprintf(stderr, "bench: %s, %s: %s is refused with %u\n", row->call->name, row->shape->name,
            name, gomxeli_number(answer));
    exit(1);
}

static void play(const struct row *row, const struct script *script, struct state *state)
{
    for (unsigned i = 0; i < script->count; i++) {
        const struct step *step = &script->step[i];
        must_be_accepted(row, step->name, step->call(state->byte, state->len, step->n));
    }
}

/* The number of a variant is its seed. */
static void build(const struct row *row, unsigned variant, struct script *script)
{
    script->kind = row->kind;
    script->count = 0;
    seed_random(variant);
    if (row->shape->build != NULL)
        row->shape->build(row->entries, script);
}

/* ------------------------------------------------------------------------ */
/* Variants                                                                 */
/* ------------------------------------------------------------------------ */

static unsigned variants_of(const struct kind *kind, const struct shape *shape)
{
    unsigned most = is_quick ? MOST_VARIANTS / 16 : MOST_VARIANTS;
    unsigned fit = (unsigned)(VARIANTS_BYTES / kind->len);
    return !shape->is_drawn ? 1 : fit < most ? fit : most;
}

static void store(const struct row *row, unsigned variant, const struct state *state,
                  struct bytes *bytes)
{
    memcpy(bytes->byte + variant * row->kind->len, state->byte, state->len);
}

static void load(const struct row *row, unsigned variant, const struct bytes *bytes,
                 struct state *state)
{
    state->len = row->kind->len;
    memcpy(state->byte, bytes->byte + variant * state->len, state->len);
}

static void build_variant(const struct row *row, unsigned variant, struct bytes *bytes)
{
    static struct state state;
    static struct script script;
    const struct kind *kind = row->kind;
    state.len = kind->len;
    memset(state.byte, 0, state.len);
    must_be_accepted(row, "opening", kind->open(state.byte, state.len, kind->opening));
    if (row->shape->lay != NULL)
        row->shape->lay(row->entries, &state);
    build(row, variant, &script);
    play(row, &script, &state);
    store(row, variant, &state, bytes);
}

/* Those that were drawn last are kept: two shapes at the counts of a kind, and with room. */
static struct kept {
    const struct shape *shape;
    size_t len;
    unsigned entries;
    struct bytes bytes;
} kept[9];

enum { KEPT = sizeof kept / sizeof kept[0] };

static bool is_kept(const struct kept *kept, const struct row *row)
{
    return kept->shape == row->shape && kept->len == row->kind->len &&
           kept->entries == row->entries;
}

static void build_kept(const struct row *row, struct kept *kept)
{
    kept->shape = row->shape;
    kept->len = row->kind->len;
    kept->entries = row->entries;
    for (unsigned i = 0; i < row->variants; i++)
        build_variant(row, i, &kept->bytes);
}

/* The first is for those that are not drawn. */
static const struct bytes *built(const struct row *row)
{
    static unsigned oldest;
    for (unsigned i = 0; i < KEPT; i++)
        if (is_kept(&kept[i], row))
            return &kept[i].bytes;
    oldest = row->shape->is_drawn ? oldest % (KEPT - 1) + 1 : oldest;
    struct kept *next = &kept[row->shape->is_drawn ? oldest : 0];
    build_kept(row, next);
    return &next->bytes;
}

static void prepare_variant(struct row *row, unsigned variant)
{
    static struct state state;
    static struct script script;
    const struct call *call = row->call;
    load(row, variant, row->built, &state);
    script.kind = row->kind;
    script.count = 0;
    if (call->prepare != NULL)
        call->prepare(&state, row->place, &script);
    play(row, &script, &state);
    store(row, variant, &state, &row->ready);
    memcpy(row->n[variant], row->kind->opening, sizeof row->n[variant]);
    if (call->numbers != NULL)
        call->numbers(&state, row->place, row->n[variant]);
}

/* ------------------------------------------------------------------------ */
/* Rows                                                                     */
/* ------------------------------------------------------------------------ */

void row_make(struct row *row, const struct kind *kind, const struct call *call,
              const struct shape *shape, enum place place, unsigned count)
{
    row->kind = kind;
    row->call = call;
    row->shape = shape;
    row->place = place;
    row->entries = call->needs_room && count == kind->entries ? count - 1 : count;
    row->variants = variants_of(kind, shape);
    row->built = built(row);
    for (unsigned i = 0; i < row->variants; i++)
        prepare_variant(row, i);
}

const uint8_t *row_bytes(const struct row *row, unsigned variant)
{
    return row->ready.byte + variant * row->kind->len;
}

void row_state(const struct row *row, unsigned variant, struct state *state)
{
    load(row, variant, &row->ready, state);
}

void row_script(const struct row *row, unsigned variant, struct script *script)
{
    static struct state state;
    build(row, variant, script);
    load(row, variant, row->built, &state);
    if (row->call->prepare != NULL)
        row->call->prepare(&state, row->place, script);
}
