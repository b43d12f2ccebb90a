/*
 * c_test: every exported call by cases, the refusals at and past each limit, and
 * the table of doubly wrong calls.
 */
#include "c_test.h"

#include <stdio.h>
#include <string.h>

static unsigned checks;
static unsigned failed;

/* Counts a check; false where it is one of the first that fail, which are said. */
static bool count_check(bool holds)
{
    enum { MOST_SAID = 100 };
    checks++;
    if (!holds)
        failed++;
    return holds || failed > MOST_SAID;
}

void check(bool holds, const char *file, int line, const char *text)
{
    if (!count_check(holds))
        fprintf(stderr, "%s:%d: %s\n", file, line, text);
}

bool has_parts(gomxeli_answer answer, unsigned number, unsigned what, unsigned first,
               uint32_t second)
{
    return gomxeli_number(answer) == number && gomxeli_what(answer) == what &&
           gomxeli_first(answer) == first && gomxeli_second(answer) == second;
}

bool same_state(const struct state *a, const struct state *b)
{
    return a->len == b->len && memcmp(a->byte, b->byte, a->len) == 0;
}

bool refuses(call_function *call, const struct state *state, const uint32_t *n, unsigned number)
{
    static struct state lent;
    bool hands_back = number == GOMXELI_NOT_TAKEN;
    lent = *state;
    gomxeli_answer answer = call(lent.len == 0 ? NULL : lent.byte, lent.len, n);
    return has_parts(answer, number, 0, hands_back ? n[0] : 0, hands_back ? n[1] : 0) &&
           same_state(&lent, state);
}

static bool accepts(call_function *call, const struct state *state, const uint32_t *n)
{
    static struct state lent;
    lent = *state;
    return gomxeli_number(call(LENT(&lent), n)) == GOMXELI_ACCEPTED;
}

void check_lengths(const struct state *whole, const struct tried *calls, unsigned number)
{
    static struct state state;
    state = *whole;
    for (state.len = 0; state.len <= MOST_BYTES; state.len++) {
        if (state.len == whole->len)
            continue;
        for (const struct tried *tried = calls; tried->call != NULL; tried++)
            CHECK(refuses(tried->call, &state, tried->n, number));
    }
}

static void check_steps(const struct run *run, struct state *state)
{
    for (unsigned i = 0; run->steps[i].call != NULL; i++) {
        const struct step *step = &run->steps[i];
        gomxeli_answer answer = step->call(LENT(state), step->n);
        bool holds = has_parts(answer, step->number, step->what, step->first, step->second);
        if (!count_check(holds))
            fprintf(stderr, "%s: step %u\n", run->what, i);
    }
}

void check_runs(const struct run *runs, unsigned count, size_t len)
{
    static struct state state;
    for (unsigned i = 0; i < count; i++) {
        state.len = len;
        memset(state.byte, 0xa5, state.len);
        check_steps(&runs[i], &state);
    }
}

static void check_case(bool holds, const struct pair *pair, const char *how, const char *text)
{
    if (!count_check(holds))
        fprintf(stderr, "%s; %s: %s\n", pair->what, how, text);
}

void check_pair(const struct pair *pair, const char *how, const struct state *whole,
                const struct state *broken, unsigned broken_number, unsigned wins)
{
    check_case(accepts(pair->call, whole, pair->good), pair, how, "accepted where all is right");
    check_case(refuses(pair->call, whole, pair->bad, pair->bad_number), pair, how,
               "the numbers' refusal where they alone are wrong");
    check_case(refuses(pair->call, broken, pair->good, broken_number), pair, how,
               "the bytes' refusal where they alone are wrong");
    check_case(refuses(pair->call, broken, pair->bad, wins), pair, how,
               "the refusal that comes first where both are wrong");
}

void check_pairs(const struct pair *pairs, const struct state *whole,
                 const struct breaking *breakings)
{
    static struct state broken;
    for (; pairs->what != NULL; pairs++) {
        for (const struct breaking *breaking = breakings; breaking->what != NULL; breaking++) {
            broken = *whole;
            breaking->apply(&broken);
            check_pair(pairs, breaking->what, whole, &broken, GOMXELI_NOT_WHOLE, GOMXELI_NOT_WHOLE);
        }
    }
}

void check_meetings(const struct meeting *meetings, const struct state *whole)
{
    for (; meetings->what != NULL; meetings++) {
        check(refuses(meetings->call, whole, meetings->both, meetings->wins), __FILE__, __LINE__,
              meetings->what);
        check(refuses(meetings->call, whole, meetings->mended, meetings->loses), __FILE__, __LINE__,
              meetings->what);
    }
}

void cut_last(struct state *state)
{
    state->len--;
}

void add_byte(struct state *state)
{
    state->byte[state->len++] = 0;
}

void cut_all(struct state *state)
{
    state->len = 0;
}

int main(void)
{
    test_answers();
    test_leaves();
    test_reg();
    test_reg_whole();
    test_lb();
    test_req();
    test_tx();
    test_img();
    test_filter();
    test_mcq();
    test_iq();
    test_kinds();
    printf("c_test: %u checks, %u failed\n", checks, failed);
    return failed == 0 ? 0 : 1;
}
