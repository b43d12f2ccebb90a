#include "replay_tree.h"

#include <inttypes.h>
#include <stdio.h>

void print_wake(gomxeli_answer answer)
{
    if (!print_refusal(answer))
        printf("0 w%u", gomxeli_what(answer));
}

void print_named(gomxeli_answer answer)
{
    if (print_refusal(answer))
        return;
    if (gomxeli_what(answer) == 0)
        printf("0 - 0");
    else
        printf("0 %u %" PRIu32, (unsigned)gomxeli_first(answer), gomxeli_second(answer));
}

/* There are no more steps in a walk than entries. */
void print_walk(struct state *state, const uint32_t *n, call_function *start, call_function *next)
{
    uint8_t named[REGISTRY_ENTRIES];
    unsigned count = 0;
    gomxeli_answer answer = start(state->bytes, state->len, n);
    bool more = gomxeli_what(answer) == 1;
    if (print_refusal(answer))
        return;
    while (more && count < REGISTRY_ENTRIES) {
        answer = next(state->bytes, state->len, n);
        named[count++] = (uint8_t)gomxeli_first(answer);
        more = gomxeli_second(answer) == 1;
    }
    printf("0 ");
    print_list(named, count);
}

/* An entry out of range is refused for that where the bytes are whole. */
bool print_not_whole(struct state *state, call_function *unregister)
{
    const uint32_t n[MOST_NUMBERS] = {UINT32_MAX};
    gomxeli_answer answer = unregister(state->bytes, state->len, n);
    if (gomxeli_number(answer) == GOMXELI_ENTRY_RANGE)
        return false;
    print_refusal(answer);
    return true;
}

void print_walk_entry(unsigned walk)
{
    if (walk == NO_WALK)
        printf("walk=-");
    else
        printf("walk=%u", walk);
}

void print_pairs(const char *name, const struct tree *tree)
{
    printf("%s=%s", name, tree->count == 0 ? "-" : "");
    for (unsigned i = 0; i < tree->count; i++)
        printf("%s%u:%u", i == 0 ? "" : ",", (unsigned)tree->at[i].entry,
               (unsigned)tree->at[i].subject);
}
