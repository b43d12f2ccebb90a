/* Lines of the key queues: `iq ..`. */
#include <inttypes.h>
#include <stdio.h>

#include "replay.h"
#include "state_iq.h"

static void run_open(struct state *state, const uint32_t *n)
{
    open_state(state, gomxeli_iq_length(n[0], n[1]), iq_open, n);
}

static void print_keys(const struct keys *keys)
{
    const char *before = "";
    printf("keys=");
    for (unsigned i = 0; i < keys->entries; i++) {
        const struct keyed *keyed = &keys->entry[i];
        if (!keyed->has_key)
            continue;
        printf("%s%u:%u:", before, i, (unsigned)keyed->key);
        if (keyed->spent)
            printf("_");
        else
            printf("%" PRIu32, keyed->value);
        before = ",";
    }
    if (*before == '\0')
        printf("-");
}

/* The call refuses only what is not whole. */
static void run_read_back(struct state *state, const uint32_t *n)
{
    static struct keys keys;
    (void)n;
    if (print_refusal(gomxeli_iq_front(state->bytes, state->len)))
        return;
    keys_read(state->bytes, &keys);
    print_keys(&keys);
    print_entries("queue", &keys.lists.list[QUEUE_CLASS]);
    print_entries("free", &keys.lists.list[FREE_CLASS]);
}

#define ANY ANY_NUMBER
#define KEY UINT16_MAX

const struct verb iq_verbs[] = {
    {"open", 2, {ANY, ANY}, NULL, NULL, run_open},
    {"ins", 2, {KEY, ANY}, iq_insert, print_second, NULL},
    {"rem", 1, {KEY}, iq_remove, print_second, NULL},
    {"get", 1, {KEY}, iq_get, print_second, NULL},
    {"has", 1, {KEY}, iq_contains, print_flag, NULL},
    {"set", 2, {KEY, ANY}, iq_get_mut, print_flag, NULL},
    {"front", 0, {0}, iq_front, print_first, NULL},
    {"back", 0, {0}, iq_back, print_first, NULL},
    {"ef", 1, {KEY}, iq_enqueue_front, print_done, NULL},
    {"eb", 1, {KEY}, iq_enqueue_back, print_done, NULL},
    {"dq", 1, {KEY}, iq_dequeue, print_done, NULL},
    {"D", 0, {0}, NULL, NULL, run_read_back},
    {NULL, 0, {0}, NULL, NULL, NULL},
};
