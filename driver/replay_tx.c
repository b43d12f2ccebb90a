/* Lines of message and response transmission: `txm ..` and `txr ..`. */
#include <inttypes.h>
#include <stdio.h>

#include "replay_tree.h"
#include "state_tx.h"

/* ------------------------------------------------------------------------ */
/* Answers                                                                  */
/* ------------------------------------------------------------------------ */

/* A pick never wakes. */
static void print_picked(gomxeli_answer answer)
{
    if (print_refusal(answer))
        return;
    if (gomxeli_what(answer) == 0)
        printf("0 nothing w0");
    else
        printf("0 %u %" PRIu32 " w0", (unsigned)gomxeli_first(answer), gomxeli_second(answer));
}

static void print_settled(gomxeli_answer answer)
{
    if (!print_refusal(answer))
        printf("0 %u w%u", (unsigned)gomxeli_first(answer), gomxeli_what(answer));
}

/* ------------------------------------------------------------------------ */
/* The state read back                                                      */
/* ------------------------------------------------------------------------ */

static struct transmission transmission;

/* The priority, and whether its started or its finished queue. */
static void print_class(unsigned cls)
{
    unsigned priority = class_priority(cls);
    printf("%u%c", priority, cls == started_class(priority) ? 'S' : 'F');
}

static void print_subject(unsigned entry)
{
    const struct tree *subjects = &transmission.subjects;
    if (tree_has_entry(subjects, entry))
        printf("%u", (unsigned)subjects->at[tree_find(subjects, entry)].subject);
    else
        printf("-");
}

/* An entry, its queue, its started set and its subject. */
static void print_queued(unsigned entry)
{
    const struct tx_queue *queue = &transmission.queue;
    unsigned cls = lists_class(&queue->queues, entry);
    printf("%u:", entry);
    if (cls == NO_CLASS)
        printf("-");
    else
        print_class(cls);
    printf(":%u:", (unsigned)queue->entry[entry].started);
    print_subject(entry);
}

static void print_readiness(unsigned entry)
{
    printf("%u:%u", entry, (unsigned)transmission.queue.entry[entry].readiness);
}

/* Prints a word and each registered entry, or - if there is none. */
static void print_each(const char *word, void (*print_entry)(unsigned entry))
{
    const char *before = "";
    printf("%s", word);
    for (unsigned e = 0; e < REGISTRY_ENTRIES; e++) {
        if (!transmission.queue.entry[e].registered)
            continue;
        printf("%s", before);
        print_entry(e);
        before = ",";
    }
    printf("%s", *before == '\0' ? "-" : "");
}

static void print_queues(void)
{
    printf("mask=%u ", (unsigned)transmission.queue.wake_mask);
    print_classes(&transmission.queue.queues, print_class);
    print_each(" ent=", print_queued);
}

static void print_ready_and_pick(void)
{
    const struct tx_queue *queue = &transmission.queue;
    print_each("ready=", print_readiness);
    if (queue->mtu == 0)
        printf(" pick=-");
    else
        printf(" pick=%u:%u:%u:%u", picked_entry(queue),
               class_priority(picked_class(queue, queue->mask)), (unsigned)queue->mask,
               (unsigned)queue->mtu);
}

/* ------------------------------------------------------------------------ */
/* The kinds                                                                */
/* ------------------------------------------------------------------------ */

typedef void read_function(const uint8_t *bytes, struct transmission *transmission);

/* Prints the refusal, or reads the state and prints it. */
static void read_back(struct state *state, call_function *unregister, read_function *read,
                      void (*print)(void))
{
    if (print_not_whole(state, unregister))
        return;
    read(state->bytes, &transmission);
    print();
}

/* What each kind has of its own name. */
#define RUNS(kind, length) \
    static void kind##_run_open(struct state *state, const uint32_t *n) \
    { \
        open_state(state, length, kind##_open, n); \
    } \
    static void kind##_run_queues(struct state *state, const uint32_t *n) \
    { \
        (void)n; \
        read_back(state, kind##_unregister, kind##_read, print_queues); \
    } \
    static void kind##_run_ready_and_pick(struct state *state, const uint32_t *n) \
    { \
        (void)n; \
        read_back(state, kind##_unregister, kind##_read, print_ready_and_pick); \
    }

RUNS(txm, GOMXELI_TXM_LENGTH)
RUNS(txr, GOMXELI_TXR_LENGTH)

#define ANY ANY_NUMBER
#define BYTE UINT8_MAX

/* The verbs but for registering, which has a subject or none. */
#define VERBS(kind) \
    {"open", 0, {0}, NULL, NULL, kind##_run_open}, \
    {"U", 1, {ANY}, kind##_unregister, print_wake, NULL}, \
    {"A", 2, {ANY, BYTE}, kind##_update, print_wake, NULL}, \
    {"K", 2, {BYTE, ANY}, kind##_pick, print_picked, NULL}, \
    {"T", 5, {BYTE, BYTE, ANY, ANY, BYTE}, kind##_settle, print_settled, NULL}, \
    {"D", 0, {0}, NULL, NULL, kind##_run_queues}, \
    {"E", 0, {0}, NULL, NULL, kind##_run_ready_and_pick}, \
    {NULL, 0, {0}, NULL, NULL, NULL}

const struct verb txm_verbs[] = {
    {"R", 3, {ANY, ANY, BYTE}, txm_register, print_wake, NULL},
    VERBS(txm),
};

const struct verb txr_verbs[] = {
    {"R", 2, {ANY, BYTE}, txr_register, print_wake, NULL},
    VERBS(txr),
};
