#include "model_tx.h"

#include "model_tree.h"
#include "state_tx.h"
#include "whole.h"

struct branch tx_branches[TX_BRANCHES] = {
    [TX_NOT_READY] = {"registered with nothing ready", 0},
    [TX_UPDATE_STAYS] = {"updated, in its queue before others", 0},
    [TX_UPDATE_MOVES] = {"updated to another queue", 0},
    [TX_UPDATE_LEAVES] = {"updated out of its queue", 0},
    [TX_PICKS_STARTED] = {"a started one picked before a finished one", 0},
    [TX_PICKS_BEFORE_UNMASKED] = {"picked, a more urgent one is not in the mask", 0},
    [TX_STORES_MASK] = {"nothing picked, another mask stored", 0},
    [TX_KEEPS_MASK] = {"nothing picked, the stored mask kept", 0},
    [TX_LAST_TO_BACK] = {"a last frame, behind others of its queue", 0},
    [TX_LAST_LEAVES] = {"a last frame, nothing ready", 0},
    [TX_STARTS] = {"a first frame, before finished ones", 0},
    [TX_CONTINUES] = {"another frame, before started ones", 0},
    [TX_CONTINUES_ELSEWHERE] = {"another frame, to another priority", 0},
    [TX_NO_FRAME_STAYS] = {"no frame, before others", 0},
    [TX_NO_FRAME_MOVES] = {"no frame, to another queue", 0},
    [TX_WAKES_BY_STORED_ALONE] = {"a settlement wakes by the stored mask, not the pick's", 0},
    [TX_WAKES_NOT_BY_PICKS] = {"a settlement does not wake, though in the pick's mask", 0},
};

static void meet(enum tx_branch branch, bool met)
{
    tx_branches[branch].count += met;
}

/* ------------------------------------------------------------------------ */
/* The meaning                                                              */
/* ------------------------------------------------------------------------ */

static struct transmission plain_transmission;

static void read_txm(const uint8_t *state, void *meaning)
{
    txm_read(state, meaning);
}

static void read_txr(const uint8_t *state, void *meaning)
{
    txr_read(state, meaning);
}

static void lay_txm(const void *meaning, uint8_t *state)
{
    txm_lay(meaning, state);
}

static void lay_txr(const void *meaning, uint8_t *state)
{
    txr_lay(meaning, state);
}

const struct model txm_model = {whole_txm, &plain_transmission, read_txm, lay_txm};
const struct model txr_model = {whole_txr, &plain_transmission, read_txr, lay_txr};

/* ------------------------------------------------------------------------ */
/* Places                                                                   */
/* ------------------------------------------------------------------------ */

/* Puts the entry into the queue that its sets give; true where it has come to a new one. */
static bool place_entry(struct tx_queue *queue, unsigned entry)
{
    unsigned old_class = lists_class(&queue->queues, entry);
    unsigned new_class = place_of(&queue->entry[entry]);
    if (new_class == old_class)
        return false;
    lists_remove(&queue->queues, entry);
    if (new_class == NO_CLASS)
        return false;
    list_push_back(&queue->queues.list[new_class], entry);
    return true;
}

static bool place_in(const struct tx_queue *queue, unsigned entry, unsigned mask)
{
    return set_has(mask, class_priority(place_of(&queue->entry[entry])));
}

/* The entry with a new readiness; the wake flag. */
static bool make_ready(struct tx_queue *queue, unsigned entry, unsigned readiness)
{
    queue->entry[entry].readiness = (uint8_t)readiness;
    return place_entry(queue, entry) && place_in(queue, entry, queue->wake_mask);
}

/* Whether the entry stands in its queue before others. */
static bool has_followers(const struct tx_queue *queue, unsigned entry)
{
    unsigned cls = lists_class(&queue->queues, entry);
    if (cls == NO_CLASS)
        return false;
    const struct list *list = &queue->queues.list[cls];
    return list->entry[list->count - 1] != entry;
}

/* ------------------------------------------------------------------------ */
/* Registering and removing                                                 */
/* ------------------------------------------------------------------------ */

/* What the calls that have an entry, and neither settle nor open, refuse first. */
static gomxeli_answer refuse_entry(const struct tx_queue *queue, uint32_t entry)
{
    if (entry >= REGISTRY_ENTRIES)
        return refusal(GOMXELI_ENTRY_RANGE);
    return refusal(queue->mtu != 0 ? GOMXELI_PICK_OPEN : GOMXELI_ACCEPTED);
}

static gomxeli_answer enter(struct tx_queue *queue, unsigned entry, unsigned readiness)
{
    queue->entry[entry] = (struct tx_entry){true, 0, 0};
    meet(TX_NOT_READY, readiness == 0);
    return yes_or_no(make_ready(queue, entry, readiness));
}

gomxeli_answer model_txr_register(void *meaning, const uint32_t *n)
{
    struct tx_queue *queue = &((struct transmission *)meaning)->queue;
    gomxeli_answer refused = refuse_entry(queue, n[0]);
    if (refused != done())
        return refused;
    if (queue->entry[n[0]].registered)
        return refusal(GOMXELI_REGISTERED);
    return enter(queue, n[0], n[1]);
}

gomxeli_answer model_txm_register(void *meaning, const uint32_t *n)
{
    struct transmission *transmission = meaning;
    struct tx_queue *queue = &transmission->queue;
    gomxeli_answer refused = refuse_registering(&transmission->subjects, n, GOMXELI_SUBJECT_ID_MAX);
    bool in_range = refused == done() || refused == refusal(GOMXELI_REGISTERED);
    if (in_range && queue->mtu != 0)
        return refusal(GOMXELI_PICK_OPEN);
    if (refused != done())
        return refused;
    if (tree_has_subject(&transmission->subjects, n[1]))
        return refusal(GOMXELI_OCCUPIED);
    tree_insert(&transmission->subjects, n[0], n[1]);
    return enter(queue, n[0], n[2]);
}

/* The refusals of a removal and of an update. */
static gomxeli_answer refuse_registered(const struct tx_queue *queue, uint32_t entry)
{
    gomxeli_answer refused = refuse_entry(queue, entry);
    if (refused == done() && !queue->entry[entry].registered)
        return refusal(GOMXELI_NOT_REGISTERED);
    return refused;
}

gomxeli_answer model_tx_unregister(void *meaning, const uint32_t *n)
{
    struct transmission *transmission = meaning;
    struct tx_queue *queue = &transmission->queue;
    gomxeli_answer refused = refuse_registered(queue, n[0]);
    if (refused != done())
        return refused;
    if (tree_has_entry(&transmission->subjects, n[0]))
        tree_remove(&transmission->subjects, tree_find(&transmission->subjects, n[0]));
    lists_remove(&queue->queues, n[0]);
    queue->entry[n[0]].registered = false;
    return done();
}

gomxeli_answer model_tx_update(void *meaning, const uint32_t *n)
{
    struct tx_queue *queue = &((struct transmission *)meaning)->queue;
    gomxeli_answer refused = refuse_registered(queue, n[0]);
    if (refused != done())
        return refused;
    unsigned old_class = lists_class(&queue->queues, n[0]);
    bool wakes = make_ready(queue, n[0], n[1]);
    unsigned new_class = lists_class(&queue->queues, n[0]);
    meet(TX_UPDATE_STAYS, new_class == old_class && has_followers(queue, n[0]));
    meet(TX_UPDATE_MOVES, new_class != old_class && new_class != NO_CLASS);
    meet(TX_UPDATE_LEAVES, new_class != old_class && new_class == NO_CLASS);
    return yes_or_no(wakes);
}

/* ------------------------------------------------------------------------ */
/* Picks and settlements                                                    */
/* ------------------------------------------------------------------------ */

static gomxeli_answer pick_nothing(struct tx_queue *queue, unsigned mask)
{
    meet(TX_STORES_MASK, mask != 0 && mask != queue->wake_mask);
    meet(TX_KEEPS_MASK, mask == 0 && queue->wake_mask != 0);
    if (mask != 0)
        queue->wake_mask = (uint8_t)mask;
    return done();
}

gomxeli_answer model_tx_pick(void *meaning, const uint32_t *n)
{
    struct tx_queue *queue = &((struct transmission *)meaning)->queue;
    if (n[1] != 8 && n[1] != 64)
        return refusal(GOMXELI_RANGE);
    if (queue->mtu != 0)
        return refusal(GOMXELI_PICK_OPEN);
    unsigned cls = picked_class(queue, n[0]);
    if (cls == NO_CLASS)
        return pick_nothing(queue, n[0]);
    unsigned priority = class_priority(cls);
    meet(TX_PICKS_STARTED,
         cls == started_class(priority) && queue->queues.list[finished_class(priority)].count > 0);
    meet(TX_PICKS_BEFORE_UNMASKED, picked_class(queue, UINT8_MAX) < cls);
    queue->mask = (uint8_t)n[0];
    queue->mtu = (uint8_t)n[1];
    return answer(GOMXELI_ACCEPTED, 1, picked_entry(queue), priority);
}

/* A settlement's frame, and whether it ends a transfer. */
static bool is_frame(const uint32_t *n)
{
    return n[0] != 0;
}

static bool is_last(const uint32_t *n)
{
    return (n[4] & 64) != 0;
}

static gomxeli_answer refuse_settlement(const struct tx_queue *queue, const uint32_t *n)
{
    if (is_frame(n) && n[2] >= PRIORITIES)
        return refusal(GOMXELI_RANGE);
    if (queue->mtu == 0)
        return refusal(GOMXELI_NO_PICK);
    if (!is_frame(n))
        return done();
    bool fits = n[3] > 0 && n[3] <= queue->mtu;
    bool is_picked = n[2] == class_priority(picked_class(queue, queue->mask));
    return refusal(fits && is_picked ? GOMXELI_ACCEPTED : GOMXELI_BAD_FRAME);
}

/* The frame's priority joins the entry's started ones, or leaves them and the queue. */
static void send_frame(struct tx_queue *queue, unsigned entry, const uint32_t *n)
{
    uint8_t *started = &queue->entry[entry].started;
    if (is_last(n)) {
        *started = (uint8_t)(*started & ~(1u << n[2]));
        lists_remove(&queue->queues, entry);
    } else {
        *started = (uint8_t)(*started | 1u << n[2]);
    }
}

/* Counts what a settlement has met; the queue is as it left it, but for the masks. */
static void meet_settlement(const struct tx_queue *queue, unsigned entry, unsigned old_class,
                            const uint32_t *n)
{
    unsigned new_class = lists_class(&queue->queues, entry);
    unsigned priority = class_priority(old_class);
    bool goes_on = is_frame(n) && !is_last(n);
    bool came = new_class != NO_CLASS && (new_class != old_class || (is_frame(n) && is_last(n)));
    bool by_wake_mask = came && place_in(queue, entry, queue->wake_mask);
    bool by_pick = came && place_in(queue, entry, queue->mask);
    meet(TX_WAKES_BY_STORED_ALONE, by_wake_mask && !by_pick);
    meet(TX_WAKES_NOT_BY_PICKS, by_pick && !by_wake_mask);
    if (is_frame(n) && is_last(n)) {
        meet(TX_LAST_TO_BACK, new_class == old_class && queue->queues.list[new_class].count > 1);
        meet(TX_LAST_LEAVES, new_class == NO_CLASS);
    }
    if (goes_on) {
        bool stays = new_class == started_class(priority);
        bool was_started = old_class == started_class(priority);
        meet(TX_STARTS, stays && !was_started && queue->queues.list[old_class].count > 0);
        meet(TX_CONTINUES, stays && was_started && has_followers(queue, entry));
        meet(TX_CONTINUES_ELSEWHERE, new_class != NO_CLASS && !stays);
    }
    if (!is_frame(n)) {
        meet(TX_NO_FRAME_STAYS, new_class == old_class && has_followers(queue, entry));
        meet(TX_NO_FRAME_MOVES, new_class != old_class && new_class != NO_CLASS);
    }
}

gomxeli_answer model_tx_settle(void *meaning, const uint32_t *n)
{
    struct tx_queue *queue = &((struct transmission *)meaning)->queue;
    gomxeli_answer refused = refuse_settlement(queue, n);
    if (refused != done())
        return refused;
    unsigned old_class = picked_class(queue, queue->mask);
    unsigned entry = picked_entry(queue);
    if (is_frame(n))
        send_frame(queue, entry, n);
    bool wakes = make_ready(queue, entry, n[1]);
    meet_settlement(queue, entry, old_class, n);
    if (!is_frame(n))
        queue->wake_mask = queue->mask;
    queue->mtu = 0;
    return answer(GOMXELI_ACCEPTED, wakes, entry, 0);
}
