/*
 * fuzz [--seed N] [--rounds N] [--thin N] [--least N]
 *
 * Makes each exported call with random bytes, with small damage to whole states,
 * with wrong lengths, with numbers at and past every limit, and on whole states
 * that no run reaches. Holds every answer and every byte to a plain model and to
 * an independent test of wholeness, and fails where an outcome that applies to a
 * call was met less than the least number of times.
 */
#define _DEFAULT_SOURCE /* write, _exit */

#include "fuzz.h"

#include <inttypes.h>
#include <signal.h>
#include <stdio.h>
#include <stdlib.h>
#include <string.h>
#include <unistd.h>

#include "lent.h"
#include "random.h"

static struct kind *const kinds[] = {&kind_reg, &kind_lb,  &kind_req, &kind_txm,
                                     &kind_txr, &kind_img, &kind_mcq, &kind_iq};

enum { KINDS = sizeof kinds / sizeof kinds[0] };

static struct {
    uint64_t seed;
    uint64_t rounds;
    uint64_t thin;
    uint64_t least;
} options = {1, 200000, 1, 1000};

/* States met, by where they came from: not whole, whole. */
static uint64_t met[KINDS][ORIGINS][2];

/* ------------------------------------------------------------------------ */
/* One call                                                                 */
/* ------------------------------------------------------------------------ */

static const char *call_in_progress = "no call";

static void copy_bytes(struct bytes *to, const struct bytes *from)
{
    to->len = from->len;
    memcpy(to->byte, from->byte, from->len);
}

static bool same_bytes(const struct bytes *a, const struct bytes *b)
{
    return a->len == b->len && memcmp(a->byte, b->byte, a->len) == 0;
}

static void count_state(const struct kind *kind, enum origin origin, bool whole)
{
    for (unsigned k = 0; k < KINDS; k++)
        if (kinds[k] == kind)
            met[k][origin][whole]++;
}

gomxeli_answer refuse_state(const struct call *call, const uint32_t *n)
{
    (void)call;
    (void)n;
    return refusal(GOMXELI_NOT_WHOLE);
}

void draw_no_sizes(uint32_t *n)
{
    (void)n;
}

void draw_no_numbers(const struct bytes *state, uint32_t *n)
{
    (void)state;
    (void)n;
}

/* What the call answers, by document 01; the state becomes what the call leaves. */
static gomxeli_answer expect(struct kind *kind, const struct call *call, bool whole,
                             struct bytes *state, const uint32_t *n)
{
    if (call->model == NULL)
        return kind->open(state, n);
    if (!whole)
        return kind->refuse(call, n);
    return model_expect(kind->model, call->model, state->byte, n);
}

static void print_bytes(const char *name, const struct bytes *bytes)
{
    fprintf(stderr, "  %s (%zu) ", name, bytes->len);
    for (size_t i = 0; i < bytes->len; i++)
        fprintf(stderr, "%02x", bytes->byte[i]);
    fprintf(stderr, "\n");
}

static void print_failure(const struct call *call, const uint32_t *n, gomxeli_answer got,
                          gomxeli_answer expected, const struct bytes states[3])
{
    if (failures_met() > 10)
        return;
    fprintf(stderr, "fuzz: %s, numbers", call->tally.name);
    for (unsigned i = 0; i < MOST_NUMBERS; i++)
        fprintf(stderr, " %" PRIu32, n[i]);
    fprintf(stderr, "\n  answer %016" PRIx64 ", expected %016" PRIx64 "\n", got, expected);
    print_bytes("before", &states[0]);
    print_bytes("after", &states[1]);
    print_bytes("expected", &states[2]);
}

void try_call(struct kind *kind, struct call *call, enum origin origin, struct bytes *state,
              const uint32_t *n)
{
    static struct bytes states[3];
    struct bytes *before = &states[0], *after = &states[1], *expected_after = &states[2];
    bool whole = kind->model->whole(state->byte, state->len);

    count_state(kind, origin, whole);
    copy_bytes(before, state);
    copy_bytes(expected_after, state);
    gomxeli_answer expected = expect(kind, call, whole, expected_after, n);

    call_in_progress = call->tally.name;
    after->len = before->len;
    uint8_t *lent = lend(before->byte, before->len);
    gomxeli_answer got = call->make(lent, before->len, n);
    bool guards_hold = take_back(after->byte);

    bool bytes_hold = guards_hold && same_bytes(after, expected_after);
    if (gomxeli_number(got) == GOMXELI_ACCEPTED)
        bytes_hold = bytes_hold && kind->model->whole(after->byte, after->len);
    if (!judge(&call->tally, got, expected, bytes_hold))
        print_failure(call, n, got, expected, states);
    copy_bytes(state, expected_after);
}

void try_drawn(struct kind *kind, struct call *call, enum origin origin, struct bytes *state)
{
    uint32_t n[MOST_NUMBERS] = {0};
    call->draw(state, n);
    try_call(kind, call, origin, state, n);
}

void try_calls(struct kind *kind, enum origin origin, const struct bytes *state)
{
    static struct bytes copy;
    for (unsigned i = 0; i < kind->call_count; i++) {
        copy_bytes(&copy, state);
        try_drawn(kind, &kind->calls[i], origin, &copy);
    }
}

/* ------------------------------------------------------------------------ */
/* States by chance                                                         */
/* ------------------------------------------------------------------------ */

void draw_whole(struct kind *kind, const uint32_t *n, struct bytes *state)
{
    state->len = kind->length(n);
    random_bytes(state->byte, state->len);
    kind->draw_meaning(n, kind->model->meaning);
    kind->model->lay(kind->model->meaning, state->byte);
}

/* A whole state of drawn sizes. */
static void draw_state(struct kind *kind, struct bytes *state)
{
    uint32_t n[MOST_NUMBERS];
    kind->draw_sizes(n);
    draw_whole(kind, n, state);
}

void resize(struct bytes *state, size_t len)
{
    if (len > state->len)
        random_bytes(state->byte + state->len, len - state->len);
    state->len = len;
}

/* A length that the states of some kind have. */
static size_t other_length(void)
{
    uint32_t n[MOST_NUMBERS];
    const struct kind *kind = kinds[below(KINDS)];
    kind->draw_sizes(n);
    return kind->length(n);
}

static void draw_random(struct kind *kind, struct bytes *state)
{
    if (!one_in(4)) {
        kind->draw_bytes(state);
        return;
    }
    state->len = 0;
    resize(state, one_in(2) ? below(600) : other_length());
}

/* A place in the state, more often than not among its first bytes. */
static size_t draw_place(const struct bytes *state)
{
    size_t len = state->len;
    return below((uint32_t)(len > 40 && one_in(2) ? 40 : len));
}

static void damage_place(struct bytes *state)
{
    uint8_t *byte = &state->byte[draw_place(state)];
    uint8_t *other = &state->byte[draw_place(state)];
    uint8_t old = *byte;
    switch (below(5)) {
    case 0:
        *byte = (uint8_t)(old ^ 1u << below(8));
        break;
    case 1:
        *byte = (uint8_t)random_bits();
        break;
    case 2:
        *byte = (uint8_t)(one_in(2) ? old + 1 : old - 1);
        break;
    case 3:
        *byte = *other;
        break;
    default:
        *byte = *other;
        *other = old;
        break;
    }
}

static void damage(struct bytes *state)
{
    for (unsigned places = 1 + below(3); places > 0; places--)
        damage_place(state);
}

static void try_resized(struct kind *kind, struct bytes *state)
{
    resize(state, one_in(2) ? below((uint32_t)state->len + 9) : other_length());
    try_calls(kind, RESIZED, state);
}

/* Opens a state and makes some calls, each on what the last one left. */
static void try_run(struct kind *kind, struct bytes *state)
{
    uint32_t n[MOST_NUMBERS];
    kind->draw_sizes(n);
    state->len = 0;
    resize(state, kind->length(n));
    try_call(kind, &kind->calls[0], RUN, state, n);
    for (unsigned steps = below(60); steps > 0; steps--)
        try_drawn(kind, &kind->calls[1 + below(kind->call_count - 1)], RUN, state);
}

static void try_round(struct kind *kind)
{
    static struct bytes state;
    enum origin origin = (enum origin)below(SWEPT);
    if (origin == RUN) {
        try_run(kind, &state);
        return;
    }
    if (origin == RANDOM)
        draw_random(kind, &state);
    else
        draw_state(kind, &state);
    if (origin == DAMAGED)
        damage(&state);
    if (origin == RESIZED)
        try_resized(kind, &state);
    else
        try_calls(kind, origin, &state);
}

/* ------------------------------------------------------------------------ */
/* States in turn                                                           */
/* ------------------------------------------------------------------------ */

bool due(void)
{
    static uint64_t step;
    return step++ % options.thin == 0;
}

/* A whole state cut or extended to each length from 0 to its own and 8 more. */
static void sweep_lengths(struct kind *kind)
{
    static struct bytes state, resized;
    draw_state(kind, &state);
    for (size_t len = 0; len <= state.len + 8; len++) {
        if (!due())
            continue;
        copy_bytes(&resized, &state);
        resize(&resized, len);
        try_calls(kind, SWEPT, &resized);
    }
}

/* Whole states of the other kinds. */
static void sweep_others(struct kind *kind)
{
    static struct bytes state;
    for (unsigned k = 0; k < KINDS; k++) {
        if (kinds[k] == kind || !due())
            continue;
        draw_state(kinds[k], &state);
        try_calls(kind, SWEPT, &state);
    }
}

static void sweep(struct kind *kind)
{
    kind->sweep();
    for (unsigned i = 0; i < 40; i++)
        sweep_lengths(kind);
    for (unsigned i = 0; i < 400; i++)
        sweep_others(kind);
}

/* ------------------------------------------------------------------------ */
/* The program                                                              */
/* ------------------------------------------------------------------------ */

#ifdef __SANITIZE_ADDRESS__ /* whose own report of a fault says more */

static void watch_faults(void)
{
}

#else

static void on_fault(int signal_number)
{
    static const char text[] = "fuzz: memory fault in ";
    (void)signal_number;
    if (write(STDERR_FILENO, text, sizeof text - 1) < 0 ||
        write(STDERR_FILENO, call_in_progress, strlen(call_in_progress)) < 0 ||
        write(STDERR_FILENO, "\n", 1) < 0)
        _exit(3);
    _exit(2);
}

/* Says which call stepped out of its buffer onto a page that may not be touched. */
static void watch_faults(void)
{
    signal(SIGSEGV, on_fault);
    signal(SIGBUS, on_fault);
}

#endif

static uint64_t *option_named(const char *word)
{
    if (strcmp(word, "--seed") == 0)
        return &options.seed;
    if (strcmp(word, "--rounds") == 0)
        return &options.rounds;
    if (strcmp(word, "--thin") == 0)
        return &options.thin;
    if (strcmp(word, "--least") == 0)
        return &options.least;
    return NULL;
}

static bool read_options(int count, char **words)
{
    for (int i = 1; i < count; i += 2) {
        uint64_t *option = option_named(words[i]);
        char *end;
        if (option == NULL || i + 1 == count)
            return false;
        *option = strtoull(words[i + 1], &end, 10);
        if (end == words[i + 1] || *end != '\0')
            return false;
    }
    return options.thin > 0;
}

static void print_met(const struct kind *kind, uint64_t counts[ORIGINS][2])
{
    static const char *const names[ORIGINS] = {"random", "damaged", "resized",
                                               "laid",   "run",     "swept"};
    printf("%s states, whole and not:", kind->name);
    for (unsigned o = 0; o < ORIGINS; o++)
        printf("  %s %" PRIu64 " %" PRIu64, names[o], counts[o][1], counts[o][0]);
    printf("\n");
}

/* A step of a model is rarer than an answer: a quarter of the least is enough. */
static bool report_kind(const struct kind *kind)
{
    bool enough = true;
    for (unsigned i = 0; i < kind->call_count; i++)
        enough = report(&kind->calls[i].tally, options.least) && enough;
    for (unsigned i = 0; i < kind->branch_count; i++)
        enough = report_branch(&kind->branches[i], options.least / 4) && enough;
    return enough;
}

static bool report_all(void)
{
    bool enough = true;
    printf("answers of each call: 0 accepted, 0+ and 0++ with what 1 and 2, else refused\n");
    for (unsigned k = 0; k < KINDS; k++)
        enough = report_kind(kinds[k]) && enough;
    enough = report_leaves(options.least) && enough;
    for (unsigned k = 0; k < KINDS; k++)
        print_met(kinds[k], met[k]);
    return enough;
}

int main(int count, char **words)
{
    if (!read_options(count, words)) {
        fprintf(stderr, "usage: fuzz [--seed N] [--rounds N] [--thin N] [--least N]\n");
        return 2;
    }
    watch_faults();
    printf("fuzz: seed %" PRIu64 ", %" PRIu64 " rounds\n", options.seed, options.rounds);
    fflush(stdout);
    seed_random(options.seed);
    for (unsigned k = 0; k < KINDS; k++)
        sweep(kinds[k]);
    for (uint64_t round = 0; round < options.rounds; round++) {
        for (unsigned k = 0; k < KINDS; k++)
            if (kinds[k]->every == 0 || round % kinds[k]->every == 0)
                try_round(kinds[k]);
        try_leaves();
    }
    bool enough = report_all();
    if (!enough)
        printf("fuzz: some answers were met too seldom\n");
    printf("fuzz: %" PRIu64 " calls, %" PRIu64 " failures\n", calls_made(), failures_met());
    return enough && failures_met() == 0 ? 0 : 1;
}
