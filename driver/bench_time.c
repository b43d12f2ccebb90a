/*
 * Time. A batch makes a call once on each of some fresh copies of a state, which are
 * made before the clock is read; a figure is that of the quickest batch, and the
 * batches of what is compared take turns. So another load on the machine, or a clock
 * of another speed later on, disturbs the figures and their ratios little.
 */
#define _POSIX_C_SOURCE 199309L /* clock_gettime */

#include <stdio.h>
#include <stdlib.h>
#include <string.h>
#include <time.h>

#include "bench.h"

/* As many copies as fit near to the processor, but not one or two. */
enum { ROOM = 40 * 1024, NEAR = 32 * 1024, FEWEST = 4, MOST = 64, ALIGNED = 64 };

/* Of the Rust's, which keep their entries beside them. */
enum { RUST_COPIES = 8 };

enum { TRIES = 60, REPETITIONS = 300, CHECKED = 64, LEAF_CALLS = 256 };

static unsigned in_haste(unsigned batches)
{
    return is_quick ? batches / 15 : batches;
}

/* Keeps what is measured from being left out. */
static volatile uint64_t sink;

static double now(void)
{
    struct timespec time;
    clock_gettime(CLOCK_MONOTONIC, &time);
    return 1e9 * (double)time.tv_sec + (double)time.tv_nsec;
}

static void take_least(double *least, double time)
{
    if (*least == 0 || time < *least)
        *least = time;
}

/* What reading the clock takes itself. */
static double clock_time(void)
{
    static double least;
    for (unsigned i = 0; least == 0 || i < 1000; i++) {
        double start = now();
        take_least(&least, now() - start);
    }
    return least;
}

/* For each of so many calls: at the least a nanosecond, which a call through a pointer
 * takes even where a coarse clock tells less. */
static double share_of(double time, unsigned calls)
{
    static double unmeasured;
    if (unmeasured == 0)
        unmeasured = clock_time();
    double share = (time - unmeasured) / calls;
    return share > 1 ? share : 1;
}

/* ------------------------------------------------------------------------ */
/* Ours                                                                     */
/* ------------------------------------------------------------------------ */

/* One pass: the build keeps the compiler from taking several bytes at once. */
static gomxeli_answer pass(uint8_t *state, size_t len, const uint32_t *n)
{
    uint64_t sum = 0;
    (void)n;
    for (size_t i = 0; i < len; i++)
        sum += state[i];
    return sum;
}

/* The next variant in turn. */
static unsigned next_of(const struct row *row)
{
    static unsigned turn;
    return turn++ % row->variants;
}

static double batch(call_function *call, const struct row *row)
{
    static uint8_t room[ROOM];
    const uint32_t *n[MOST];
    size_t len = row->kind->len, apart = (len + ALIGNED - 1) / ALIGNED * ALIGNED;
    size_t fit = NEAR / apart;
    unsigned copies = fit < FEWEST ? FEWEST : fit > MOST ? MOST : (unsigned)fit;
    uint64_t sum = 0;
    for (unsigned i = 0; i < copies; i++) {
        unsigned variant = next_of(row);
        memcpy(room + i * apart, row_bytes(row, variant), len);
        n[i] = row->n[variant];
    }
    double start = now();
    for (unsigned i = 0; i < copies; i++)
        sum += call(room + i * apart, len, n[i]);
    double time = now() - start;
    sink = sum;
    return share_of(time, copies);
}

static void take_batches(const struct row *row, struct figures *least)
{
    take_least(&least->pass, batch(pass, row));
    take_least(&least->call, batch(row->call->call, row));
}

struct figures try_row(const struct row *row)
{
    struct figures least = {0, 0, 0};
    for (unsigned i = 0; i < in_haste(TRIES); i++)
        take_batches(row, &least);
    return least;
}

/* ------------------------------------------------------------------------ */
/* The Rust                                                                 */
/* ------------------------------------------------------------------------ */

#ifndef BENCH_RUST

const struct rust_kind *rust_kind(const char *name, uint32_t entries)
{
    (void)name;
    (void)entries;
    return NULL;
}

#endif

static void fail(const char *call, const char *state, const char *what)
{
    fprintf(stderr, "bench: %s, %s: %s\n", call, state, what);
    exit(1);
}

/* The Rust's call of a row. */
struct rust_row {
    const struct row *row;
    const struct rust_kind *kind;
    rust_function *pick; /* where the call is a settlement that its pick stands for */
    rust_function *call;
};

/* One that is made for a variant, and the numbers of its call. */
struct rust_made {
    void *made;
    uint32_t n[MOST_NUMBERS];
};

/* The calls that are put to the Rust: those accepted, and those refused as it refuses. */
static bool is_put(gomxeli_answer answer)
{
    unsigned number = gomxeli_number(answer);
    return number == GOMXELI_ACCEPTED || number == GOMXELI_NO_SUBJECT_SLOT ||
           number == GOMXELI_OCCUPIED || number == GOMXELI_NOT_TAKEN || number == GOMXELI_NO_KEY;
}

static gomxeli_answer our_answer(const struct row *row, unsigned variant)
{
    static struct state state;
    row_state(row, variant, &state);
    return row->call->call(state.byte, state.len, row->n[variant]);
}

static bool are_put(const struct row *row)
{
    for (unsigned i = 0; i < row->variants; i++)
        if (!is_put(our_answer(row, i)))
            return false;
    return true;
}

static rust_function *rust_call(const struct rust_kind *kind, const char *name)
{
    rust_function *call = kind->call(name);
    if (call == NULL)
        fail(name, "any state", "the Rust has no such call");
    return call;
}

/* Whether there is a call of the Rust's to compare with. */
static bool rust_find(const struct row *row, struct rust_row *rust)
{
    const struct call *settlement = row->call->settlement;
    rust->row = row;
    rust->kind = rust_kind(row->kind->name, row->kind->entries);
    if (rust->kind == NULL || row->call->is_test || row->shape->lay != NULL ||
        row->shape->panics || !are_put(row))
        return false;
    rust->call = rust_call(rust->kind, settlement != NULL ? settlement->name : row->call->name);
    rust->pick = settlement != NULL ? rust_call(rust->kind, row->call->name) : NULL;
    return true;
}

static void rust_play(const struct rust_row *rust, unsigned variant, void *made)
{
    static struct script script;
    row_script(rust->row, variant, &script);
    for (unsigned i = 0; i < script.count; i++)
        rust_call(rust->kind, script.step[i].name)(made, script.step[i].n);
}

/* A pick's numbers wait for the settlement's call, which has its own. */
static void rust_pick(const struct rust_row *rust, unsigned variant, struct rust_made *made)
{
    static struct state state;
    rust->pick(made->made, rust->row->n[variant]);
    row_state(rust->row, variant, &state);
    rust->row->call->settlement->numbers(&state, rust->row->place, made->n);
}

/* An opening looks at nothing: for that, one that is new. */
static struct rust_made rust_make(const struct rust_row *rust, unsigned variant)
{
    const struct row *row = rust->row;
    struct rust_made made = {rust->kind->make(row->kind->opening), {0}};
    memcpy(made.n, row->n[variant], sizeof made.n);
    if (row->call->call != row->kind->open)
        rust_play(rust, variant, made.made);
    if (rust->pick != NULL)
        rust_pick(rust, variant, &made);
    return made;
}

static double rust_batch(const struct rust_row *rust)
{
    struct rust_made made[RUST_COPIES];
    uint64_t sum = 0;
    for (unsigned i = 0; i < RUST_COPIES; i++)
        made[i] = rust_make(rust, next_of(rust->row));
    double start = now();
    for (unsigned i = 0; i < RUST_COPIES; i++)
        sum += rust->call(made[i].made, made[i].n);
    double time = now() - start;
    sink = sum;
    for (unsigned i = 0; i < RUST_COPIES; i++)
        rust->kind->drop(made[i].made);
    return share_of(time, RUST_COPIES);
}

/* What both sides answer: no wake flag, and of a pick the entry alone. */
static gomxeli_answer compared(const struct call *call, gomxeli_answer answer)
{
    const gomxeli_answer what = 0xff00, second = ~(gomxeli_answer)0xffffffff;
    if (call->settlement != NULL)
        return answer & ~what & ~second;
    return call->wakes ? answer & ~what : answer;
}

static void check_answer(const struct rust_row *rust, unsigned variant)
{
    const struct row *row = rust->row;
    struct rust_made made = rust_make(rust, variant);
    gomxeli_answer theirs = rust->call(made.made, made.n);
    rust->kind->drop(made.made);
    if (compared(row->call, theirs) != compared(row->call, our_answer(row, variant)))
        fail(row->call->name, row->shape->name, "the Rust answers otherwise");
}

/* ------------------------------------------------------------------------ */
/* Rows and leaves                                                          */
/* ------------------------------------------------------------------------ */

struct figures time_row(const struct row *row)
{
    struct rust_row rust;
    struct figures least = {0, 0, 0};
    bool has_rust = rust_find(row, &rust);
    for (unsigned i = 0; has_rust && i < row->variants && i < CHECKED; i++)
        check_answer(&rust, i);
    for (unsigned i = 0; i < in_haste(REPETITIONS); i++) {
        take_batches(row, &least);
        if (has_rust)
            take_least(&least.rust, rust_batch(&rust));
    }
    return least;
}

/* The numbers of the i-th call. */
static void leaf_numbers(const struct leaf *leaf, unsigned i, uint32_t *n)
{
    for (unsigned k = 0; k < MOST_NUMBERS; k++)
        n[k] = i * (2 * k + 1) % (leaf->most[k] + 1);
}

static double leaf_batch(const struct leaf *leaf, rust_function *rust)
{
    static uint32_t n[LEAF_CALLS][MOST_NUMBERS];
    uint64_t sum = 0;
    for (unsigned i = 0; i < LEAF_CALLS; i++)
        leaf_numbers(leaf, i, n[i]);
    double start = now();
    for (unsigned i = 0; i < LEAF_CALLS; i++)
        sum += rust != NULL ? rust(NULL, n[i]) : leaf->call(n[i]);
    double time = now() - start;
    sink = sum;
    return share_of(time, LEAF_CALLS);
}

/* Both answer the same; what is left of a set that is walked over, the Rust keeps. */
static void check_leaf(const struct leaf *leaf, rust_function *rust)
{
    for (unsigned i = 0; i < LEAF_CALLS; i++) {
        uint32_t n[MOST_NUMBERS];
        leaf_numbers(leaf, i, n);
        if ((uint32_t)leaf->call(n) != (uint32_t)rust(NULL, n))
            fail(leaf->name, "all numbers", "the Rust answers otherwise");
    }
}

struct figures time_leaf(const struct leaf *leaf)
{
    const struct rust_kind *kind = rust_kind("leaves", 0);
    rust_function *rust = kind != NULL ? rust_call(kind, leaf->name) : NULL;
    struct figures least = {0, 0, 0};
    if (rust != NULL)
        check_leaf(leaf, rust);
    for (unsigned i = 0; i < in_haste(REPETITIONS); i++) {
        take_least(&least.call, leaf_batch(leaf, NULL));
        if (rust != NULL)
            take_least(&least.rust, leaf_batch(leaf, rust));
    }
    return least;
}
