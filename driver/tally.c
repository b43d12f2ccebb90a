#include "tally.h"

#include <inttypes.h>
#include <stdio.h>

static uint64_t calls;
static uint64_t failures;

/* The outcome's place in the counts; OUTCOMES where the answer is none. */
static unsigned outcome_of(gomxeli_answer answer)
{
    unsigned number = gomxeli_number(answer);
    unsigned what = gomxeli_what(answer);
    if (number == 0)
        return what <= LAST_WHAT ? what : OUTCOMES;
    return number <= LAST_NUMBER ? number + LAST_WHAT : OUTCOMES;
}

bool judge(struct tally *tally, gomxeli_answer got, gomxeli_answer expected, bool bytes_hold)
{
    unsigned outcome = outcome_of(got);
    bool applies = outcome < OUTCOMES && (tally->outcomes >> outcome & 1) == 1;
    calls++;
    if (applies)
        tally->count[outcome]++;
    if (applies && got == expected && bytes_hold)
        return true;
    failures++;
    return false;
}

static void print_count(unsigned outcome, uint64_t count)
{
    static const char *const accepted[LAST_WHAT + 1] = {"0", "0+", "0++"};
    if (outcome <= LAST_WHAT)
        printf("  %s: %" PRIu64, accepted[outcome], count);
    else
        printf("  %u: %" PRIu64, outcome - LAST_WHAT, count);
}

/* Says where a count is less than the least. */
static bool is_enough(uint64_t count, uint64_t least)
{
    if (count < least)
        printf(" (less than %" PRIu64 ")", least);
    return count >= least;
}

bool report(const struct tally *tally, uint64_t least)
{
    bool enough = true;
    printf("%-32s", tally->name);
    for (unsigned i = 0; i < OUTCOMES; i++) {
        if ((tally->outcomes >> i & 1) == 0)
            continue;
        print_count(i, tally->count[i]);
        enough = is_enough(tally->count[i], least) && enough;
    }
    printf("\n");
    return enough;
}

bool report_branch(const struct branch *branch, uint64_t least)
{
    printf("  %s: %" PRIu64, branch->name, branch->count);
    bool enough = is_enough(branch->count, least);
    printf("\n");
    return enough;
}

uint64_t calls_made(void)
{
    return calls;
}

uint64_t failures_met(void)
{
    return failures;
}
