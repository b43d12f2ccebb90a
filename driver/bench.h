/*
 * The benchmark's parts. A kind of state has shapes, which are lists of calls that
 * lead to a state of so many entries, and calls that are measured in these states.
 */
#ifndef BENCH_H
#define BENCH_H

#include <stdbool.h>

#include "calls.h"

/* The longest state: a key queue of the largest size. */
enum { MOST_BYTES = GOMXELI_IQ_LENGTH(GOMXELI_IQ_KEY_MAX, GOMXELI_IQ_ENTRIES_MAX) };

struct state {
    size_t len;
    uint8_t byte[MOST_BYTES];
};

/* ------------------------------------------------------------------------ */
/* Kinds, shapes and calls                                                  */
/* ------------------------------------------------------------------------ */

/* A call with its numbers. The Rust has its own under the same name. */
struct step {
    const char *name;
    call_function *call;
    uint32_t n[MOST_NUMBERS];
};

enum { MOST_STEPS = 1200 };

struct kind;

struct script {
    const struct kind *kind;
    unsigned count;
    struct step step[MOST_STEPS];
};

void script_add(struct script *script, const char *name, call_function *call, const uint32_t *n);

#define STEP(script, name, ...) \
    script_add(script, #name, name, (const uint32_t[MOST_NUMBERS]){__VA_ARGS__})

/*
 * A state that calls lead to from opening, or many that are drawn at random. Where none
 * do, it is laid out: the Rust cannot be brought there.
 */
struct shape {
    const char *name;
    void (*build)(unsigned count, struct script *script);
    void (*lay)(unsigned count, struct state *state);
    bool is_drawn;
    bool panics; /* the Rust may, at a call that ours answers */
};

/* The name of those that are drawn: a processor has not learned them yet. */
#define DRAWN(drawn) {.name = "drawn, each met anew", .build = drawn, .is_drawn = true}

/* What a call aims at: an entry, subject, class or key at a place, or something else. */
enum place { FIRST, MIDDLE, LAST, OTHER, PLACES };

/* The names of the first three. */
extern const char *const three_places[PLACES];

/* The index that a place has among so many, of which there is at least one. */
unsigned index_of(enum place place, unsigned count);

struct call {
    const char *name;
    call_function *call;
    /* The names of what it is aimed at, the middle the usual; NULL: it has no choice. */
    const char *const *places;
    /* The numbers that it has, by the state that it is made in; NULL: it has none. */
    void (*numbers)(const struct state *state, enum place place, uint32_t *n);
    /* What is called before it is measured; NULL: nothing. */
    void (*prepare)(const struct state *state, enum place place, struct script *script);
    bool needs_room; /* for one entry more */
    bool wakes;      /* what is a wake flag, which the Rust does not answer */
    bool is_test;    /* not the Rust's */
    /* A pick: the Rust makes it and its settlement in one call, that of this one. */
    const struct call *settlement;
};

struct kind {
    const char *name; /* its calls' names begin with it */
    const char *title;
    size_t len;
    unsigned entries; /* the most that there may be */
    call_function *open;
    uint32_t opening[MOST_NUMBERS];
    const unsigned *counts; /* of entries, at which it is measured; ended by the most */
    const struct shape *shapes; /* ended by no name; the first is the usual one */
    const struct call *calls;   /* ended by no name */
};

#define CALLED(called) .name = #called, .call = called

/*
 * The test of the state alone, as a call of a kind: by one that has a number past all
 * ends, and so does nothing after it.
 */
#define TEST_ALONE(kind) .name = "the test alone", .call = kind##_test, .is_test = true
#define TEST_BY(kind, called, past) \
    static gomxeli_answer kind##_test(uint8_t *state, size_t len, const uint32_t *n) \
    { \
        (void)n; \
        return gomxeli_##called(state, len, past); \
    }

extern const struct kind reg_kind, lb_kind, req_kind, txm_kind, txr_kind, img_kind;
extern const struct kind mcq_kind, mcq_largest_kind, iq_kind, iq_largest_kind;

/* None, some, and all 128. */
extern const unsigned registry_counts[];

/* Entries in a scattered order, so that neighbours in a tree are none by number. */
unsigned nth_entry(unsigned i);

/* ------------------------------------------------------------------------ */
/* Rows and leaves                                                          */
/* ------------------------------------------------------------------------ */

/* As many states as are drawn of one shape, and their bytes. */
enum { MOST_VARIANTS = 1024, VARIANTS_BYTES = 2 * 1024 * 1024 };

struct bytes {
    uint8_t byte[VARIANTS_BYTES];
};

/* A call in a state, or in each of many. */
struct row {
    const struct kind *kind;
    const struct call *call;
    const struct shape *shape;
    enum place place;
    unsigned entries;
    unsigned variants;
    const struct bytes *built; /* before the call is prepared */
    struct bytes ready;
    uint32_t n[MOST_VARIANTS][MOST_NUMBERS];
};

/* Nanoseconds of the call, of one pass over the bytes, and of the Rust's; 0: not measured. */
struct figures {
    double call;
    double pass;
    double rust;
};

/* Makes the states of so many entries, and the call's numbers in each. */
void row_make(struct row *row, const struct kind *kind, const struct call *call,
              const struct shape *shape, enum place place, unsigned count);

/* A variant's bytes; its state; the calls that lead to it from opening. */
const uint8_t *row_bytes(const struct row *row, unsigned variant);
void row_state(const struct row *row, unsigned variant, struct state *state);
void row_script(const struct row *row, unsigned variant, struct script *script);

/* Measures the call and the pass by some batches; these and the Rust's call by more. */
struct figures try_row(const struct row *row);
struct figures time_row(const struct row *row);

/* A call without state. Its numbers run from 0 to the most. */
struct leaf {
    const char *name;
    gomxeli_answer (*call)(const uint32_t *n);
    uint32_t most[MOST_NUMBERS];
};

/* Ended by no name. */
extern const struct leaf leaves[];

struct figures time_leaf(const struct leaf *leaf);

/* Fewer batches and variants, for a run that only sees to it that every call is measured. */
extern bool is_quick;

/* ------------------------------------------------------------------------ */
/* The Rust                                                                 */
/* ------------------------------------------------------------------------ */

typedef gomxeli_answer rust_function(void *made, const uint32_t *n);

/* A kind at one size: made, dropped, and its calls by name, NULL where there is none. */
struct rust_kind {
    void *(*make)(const uint32_t *opening);
    void (*drop)(void *made);
    rust_function *(*call)(const char *name);
};

/* NULL where the Rust has no such kind, or is not linked. Leaves are a kind without state. */
const struct rust_kind *rust_kind(const char *name, uint32_t entries);

#endif
