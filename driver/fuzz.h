/*
 * Damaged input: what the kinds of state share, the image among them. A kind
 * describes its calls, a plain model of each, and how to draw states and numbers.
 * fuzz.c draws, makes the calls on lent buffers, and holds answers and bytes to the
 * model.
 *
 * A kind is a file fuzz_KIND.c with a `struct kind`, which fuzz.c lists.
 */
#ifndef FUZZ_H
#define FUZZ_H

#include <stdbool.h>
#include <stddef.h>
#include <stdint.h>

#include "calls.h"
#include "model.h"
#include "tally.h"

/* Longer than any state, so that states that are too long can be lent too. */
enum { MOST_BYTES = 12000 };

struct bytes {
    size_t len;
    uint8_t byte[MOST_BYTES];
};

/* A call, and in `n` here and below its numbers, in the header's order. */
struct call {
    struct tally tally;
    call_function *make;
    /* The same on the kind's meaning; NULL for the opening. */
    model_call *model;
    /* Draws numbers for the call on a state of any bytes. */
    void (*draw)(const struct bytes *state, uint32_t *n);
};

struct kind {
    const char *name;
    struct call *calls; /* the opening comes first */
    unsigned call_count;

    /* Draws sizes that are allowed: the opening's numbers. And their length. */
    void (*draw_sizes)(uint32_t *n);
    size_t (*length)(const uint32_t *n);

    /* What an opening does: its answer, and its bytes where it is accepted. */
    gomxeli_answer (*open)(struct bytes *state, const uint32_t *n);

    /* What a call, but for the opening, answers on bytes that are not whole. */
    gomxeli_answer (*refuse)(const struct call *call, const uint32_t *n);

    const struct model *model;

    /* Draws any meaning of these sizes that document 01 allows. */
    void (*draw_meaning)(const uint32_t *n, void *meaning);

    /* Draws bytes with the sizes and the length of a state, whole by chance only. */
    void (*draw_bytes)(struct bytes *state);

    /* Makes the calls that are tried in turn and not by chance. */
    void (*sweep)(void);

    /* Steps of the model that must be met, or none. */
    struct branch *branches;
    unsigned branch_count;

    /* A round of the kind is made in one of so many; 0 is as 1. */
    unsigned every;
};

extern struct kind kind_reg;
extern struct kind kind_lb;
extern struct kind kind_req;
extern struct kind kind_txm;
extern struct kind kind_txr;
extern struct kind kind_img;
extern struct kind kind_mcq;
extern struct kind kind_iq;

/* Where a state came from. */
enum origin { RANDOM, DAMAGED, RESIZED, LAID, RUN, SWEPT, ORIGINS };

/* The `refuse` of all kinds of state: 1. */
gomxeli_answer refuse_state(const struct call *call, const uint32_t *n);

/* The `draw_sizes` of kinds of one size, and the `draw` of calls without numbers. */
void draw_no_sizes(uint32_t *n);
void draw_no_numbers(const struct bytes *state, uint32_t *n);

/*
 * Lends a copy of the state to a call and judges answer and bytes. The state
 * becomes what the model says that the call leaves.
 */
void try_call(struct kind *kind, struct call *call, enum origin origin, struct bytes *state,
              const uint32_t *n);

/* The same with drawn numbers. */
void try_drawn(struct kind *kind, struct call *call, enum origin origin, struct bytes *state);

/* Makes each call of the kind, with drawn numbers, on its own copy of the state. */
void try_calls(struct kind *kind, enum origin origin, const struct bytes *state);

/* A whole state of the sizes, with a drawn meaning over random bytes. */
void draw_whole(struct kind *kind, const uint32_t *n, struct bytes *state);

/* Cuts the state, or adds random bytes to it. */
void resize(struct bytes *state, size_t len);

/* Whether this step of a sweep is made: each is, or in a thinned run every nth. */
bool due(void);

/* The calls that have no state: makes each some times, or reports them all. */
void try_leaves(void);
bool report_leaves(uint64_t least);

#endif
