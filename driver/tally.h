/* Calls counted by what they answered, and answers held to what was expected. */
#ifndef TALLY_H
#define TALLY_H

#include <stdbool.h>
#include <stdint.h>

#include "gomxeli.h"

/*
 * What a call can answer, as a set: accepted with what 0, 1 or 2, refused with a
 * number.
 */
#define PLAIN 1u
#define SOME 2u
#define OTHER 4u
#define REFUSED(number) (4u << (number))

enum { LAST_WHAT = 2, LAST_NUMBER = 17, OUTCOMES = LAST_WHAT + LAST_NUMBER + 1 };

struct tally {
    const char *name;
    unsigned outcomes; /* the set of those that apply to the call */
    uint64_t count[OUTCOMES];
};

/* Counts an answer. False, and a failure, where it is not as expected. */
bool judge(struct tally *tally, gomxeli_answer got, gomxeli_answer expected, bool bytes_hold);

/*
 * Prints the counts. False where an outcome that applies was met less than the
 * least number of times, which is printed too.
 */
bool report(const struct tally *tally, uint64_t least);

/* A step that a model takes, counted by the model, and reported like an outcome. */
struct branch {
    const char *name;
    uint64_t count;
};

bool report_branch(const struct branch *branch, uint64_t least);

uint64_t calls_made(void);
uint64_t failures_met(void);

/* An answer of these parts. */
static inline gomxeli_answer answer(unsigned number, unsigned what, uint32_t first, uint32_t second)
{
    return (gomxeli_answer)number | (gomxeli_answer)what << 8 | (gomxeli_answer)first << 16 |
           (gomxeli_answer)second << 32;
}

static inline gomxeli_answer refusal(unsigned number)
{
    return answer(number, 0, 0, 0);
}

/* Accepted: with nothing more, with a flag, with a first field, with a second. */
static inline gomxeli_answer done(void)
{
    return answer(0, 0, 0, 0);
}

static inline gomxeli_answer yes_or_no(bool what)
{
    return answer(0, what, 0, 0);
}

static inline gomxeli_answer some_first(uint32_t first)
{
    return answer(0, 1, first, 0);
}

static inline gomxeli_answer some_second(uint32_t second)
{
    return answer(0, 1, 0, second);
}

#endif
