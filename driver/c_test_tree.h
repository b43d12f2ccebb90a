/*
 * What the tests of the registries share, and registries held to their models: with
 * numbers in turn, with each byte of a state changed to each value, and over random
 * sequences.
 */
#ifndef C_TEST_TREE_H
#define C_TEST_TREE_H

#include "c_test.h"
#include "model.h"

/* Lays an entry and its subject out at a place of the tree that stands at the offset. */
void lay_place(uint8_t *bytes, unsigned tree, unsigned place, unsigned entry, unsigned subject);

/* ------------------------------------------------------------------------ */
/* Registries and their models                                              */
/* ------------------------------------------------------------------------ */

/* What a call's number is; NO_NUMBER after the last. */
enum number {
    NO_NUMBER,
    ENTRY,
    SUBJECT,
    LOOP_BACK,
    READINESS,
    MASK,
    MTU,
    FRAME,
    PRIORITY,
    FRAME_LENGTH,
    LAST_BYTE
};

struct modelled {
    const char *what;
    call_function *call;
    model_call *model;
    enum number n[MOST_NUMBERS];
    unsigned turned; /* the first of two numbers that stand at their limits in turn */
};

#define NO_MODELLED {NULL, NULL, NULL, {NO_NUMBER}, 0}

struct modelled_kind {
    size_t len;
    call_function *open;
    const struct modelled *calls; /* registering first, removing second; ended by no name */
    const struct model *model;
    uint32_t largest;      /* subject or service */
    const uint32_t *spans; /* how many subjects to have entries on, ended by 0 */
    bool one_call_each;    /* a changed byte meets one call, drawn, and not each */
};

/* Opens the state and registers entries, scattered in order and over so many subjects. */
void fill(const struct modelled_kind *kind, struct state *state, unsigned count, uint32_t span);

/* Sets the places of the tree that comes first past the count to bytes at random. */
void fill_silent(struct state *state, unsigned count);

/* Makes random calls; false at the first that does not agree with its model. */
bool random_calls_agree(const struct modelled_kind *kind, struct state *state, uint32_t span,
                        unsigned count);

/* Opening leaves these bytes, whatever was there. */
void check_opening(const struct modelled_kind *kind, const uint8_t *opened);

/* Each call, two of its numbers at and around all limits. */
void check_numbers(const struct modelled_kind *kind, const struct state *whole);

/*
 * Calls after each change of one byte, with numbers of the span: refused with 1 just
 * where the bytes are not whole.
 */
void check_single_bytes(const struct modelled_kind *kind, const struct state *whole, uint32_t span);

/* Random calls with all entries registered, and until none is. */
void check_sequences(const struct modelled_kind *kind);

/* Ways to break a state whose tree comes first, with two entries or more. */
void count_129(struct state *state);
void entry_128(struct state *state);
void entry_twice(struct state *state);
void out_of_order(struct state *state);

#endif
