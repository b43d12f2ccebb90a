/*
 * Tests of the header and the archive by cases. Each file c_test_*.c has one
 * function, which c_test.c calls.
 */
#ifndef C_TEST_H
#define C_TEST_H

#include <stdbool.h>
#include <stddef.h>
#include <stdint.h>

#include "calls.h"

void test_answers(void);
void test_leaves(void);
void test_reg(void);
void test_reg_whole(void);
void test_lb(void);
void test_req(void);
void test_tx(void);
void test_img(void);
void test_filter(void);
void test_mcq(void);
void test_iq(void);
void test_kinds(void);

/* ------------------------------------------------------------------------ */
/* Checks                                                                   */
/* ------------------------------------------------------------------------ */

/* Counts a check, and says where it stands if it does not hold. */
void check(bool holds, const char *file, int line, const char *text);

#define CHECK(condition) check((condition), __FILE__, __LINE__, #condition)

/* Whether an answer has these parts, each taken out by the header's function. */
bool has_parts(gomxeli_answer answer, unsigned number, unsigned what, unsigned first,
               uint32_t second);

#define CHECK_PARTS(call, number, what, first, second) \
    check(has_parts((call), (number), (what), (first), (second)), __FILE__, __LINE__, #call)

/* Accepted, with nothing more; with a flag; with a first field; with a second. */
#define CHECK_DONE(call) CHECK_PARTS(call, 0, 0, 0, 0)
#define CHECK_FLAG(call, what) CHECK_PARTS(call, 0, what, 0, 0)
#define CHECK_FIRST(call, first) CHECK_PARTS(call, 0, 1, first, 0)
#define CHECK_SECOND(call, second) CHECK_PARTS(call, 0, 1, 0, second)
#define CHECK_NONE(call) CHECK_PARTS(call, 0, 0, 0, 0)
#define CHECK_REFUSED(call, number) CHECK_PARTS(call, number, 0, 0, 0)

/* ------------------------------------------------------------------------ */
/* States                                                                   */
/* ------------------------------------------------------------------------ */

enum { MOST_BYTES = 10000 };

struct state {
    size_t len;
    uint8_t byte[MOST_BYTES];
};

/* The arguments that lend a state. */
#define LENT(state) (state)->byte, (state)->len

bool same_state(const struct state *a, const struct state *b);

/* Whether the call is refused with the number and every byte stays. */
bool refuses(call_function *call, const struct state *state, const uint32_t *n, unsigned number);

/* A call, with numbers for which it is accepted on some state; a list ends with no call. */
struct tried {
    call_function *call;
    uint32_t n[MOST_NUMBERS];
};

/* At each length but the state's own, from 0 past those of all kinds, they are refused. */
void check_lengths(const struct state *whole, const struct tried *calls, unsigned number);

/* ------------------------------------------------------------------------ */
/* Steps                                                                    */
/* ------------------------------------------------------------------------ */

/* A call and what it answers. */
struct step {
    call_function *call;
    uint32_t n[MOST_NUMBERS];
    unsigned number, what, first;
    uint32_t second;
};

#define REFUSES(number) (number), 0, 0, 0

enum { MOST_STEPS = 32 };

struct run {
    const char *what;
    struct step steps[MOST_STEPS]; /* up to one without call */
};

/* Makes the calls of each run, one after the other, on bytes of the length. */
void check_runs(const struct run *runs, unsigned count, size_t len);

/* ------------------------------------------------------------------------ */
/* Doubly wrong calls                                                       */
/* ------------------------------------------------------------------------ */

/*
 * A call for which two refusals can meet: the bytes are not whole (or, at opening,
 * the length is not that of the sizes, or no image's), and its numbers are wrong for
 * the bytes.
 */
struct pair {
    const char *what;
    call_function *call;
    uint32_t good[MOST_NUMBERS]; /* numbers with which the call is accepted */
    uint32_t bad[MOST_NUMBERS];  /* numbers with which it is refused */
    unsigned bad_number;         /* and the refusal */
};

/*
 * On the whole state the call is accepted, and with bad numbers refused for them;
 * on the broken one it is refused with the bytes' number, 1 or an image's 4; where
 * both are wrong, the number that wins is answered. `how` says how the state is
 * broken.
 */
void check_pair(const struct pair *pair, const char *how, const struct state *whole,
                const struct state *broken, unsigned broken_number, unsigned wins);

/* A way to make a whole state not whole. */
struct breaking {
    const char *what;
    void (*apply)(struct state *state);
};

/* Each pair with each way, ended by an entry with no name; 1 wins. */
void check_pairs(const struct pair *pairs, const struct state *whole,
                 const struct breaking *breakings);

/*
 * Two refusals that meet on a whole state: the one that wins, and, with its reason
 * mended, the other.
 */
struct meeting {
    const char *what;
    call_function *call;
    uint32_t both[MOST_NUMBERS];
    unsigned wins;
    uint32_t mended[MOST_NUMBERS];
    unsigned loses;
};

/* Ended by an entry with no name. */
void check_meetings(const struct meeting *meetings, const struct state *whole);

/* Ways that every kind has: one byte too few, one too many, none. */
void cut_last(struct state *state);
void add_byte(struct state *state);
void cut_all(struct state *state);

#endif
