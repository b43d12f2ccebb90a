#include "state_tx.h"

enum { REGISTERED_WRITTEN = 1 };

/* ------------------------------------------------------------------------ */
/* Bytes                                                                    */
/* ------------------------------------------------------------------------ */

void transmission_clear(struct transmission *transmission)
{
    struct tx_queue *queue = &transmission->queue;
    transmission->subjects.count = 0;
    lists_clear(&queue->queues, TX_CLASSES, REGISTRY_ENTRIES);
    for (unsigned e = 0; e < REGISTRY_ENTRIES; e++)
        queue->entry[e] = (struct tx_entry){false, 0, 0};
    queue->wake_mask = 0;
    queue->mask = 0;
    queue->mtu = 0;
}

static void queue_read(const uint8_t *bytes, struct tx_queue *queue)
{
    lists_read(bytes, &queue->queues);
    for (unsigned e = 0; e < REGISTRY_ENTRIES; e++)
        queue->entry[e] = (struct tx_entry){bytes[REGISTERED_AT + e] != 0, bytes[READINESS_AT + e],
                                            bytes[STARTED_AT + e]};
    queue->wake_mask = bytes[WAKE_MASK_AT];
    queue->mask = bytes[PICK_MASK_AT];
    queue->mtu = bytes[PICK_MTU_AT];
}

static void entry_lay(const struct tx_entry *entry, unsigned e, uint8_t *bytes)
{
    if (entry->registered != (bytes[REGISTERED_AT + e] != 0))
        bytes[REGISTERED_AT + e] = entry->registered ? REGISTERED_WRITTEN : 0;
    if (!entry->registered)
        return;
    bytes[READINESS_AT + e] = entry->readiness;
    bytes[STARTED_AT + e] = entry->started;
}

static void queue_lay(const struct tx_queue *queue, uint8_t *bytes)
{
    lists_lay(&queue->queues, bytes);
    for (unsigned e = 0; e < REGISTRY_ENTRIES; e++)
        entry_lay(&queue->entry[e], e, bytes);
    bytes[WAKE_MASK_AT] = queue->wake_mask;
    if (queue->mtu != 0)
        bytes[PICK_MASK_AT] = queue->mask;
    bytes[PICK_MTU_AT] = queue->mtu;
}

void txm_read(const uint8_t *bytes, struct transmission *transmission)
{
    tree_read(bytes, &transmission->subjects);
    queue_read(bytes + TREE_LENGTH, &transmission->queue);
}

void txr_read(const uint8_t *bytes, struct transmission *transmission)
{
    transmission->subjects.count = 0;
    queue_read(bytes, &transmission->queue);
}

void txm_lay(const struct transmission *transmission, uint8_t *bytes)
{
    tree_lay(&transmission->subjects, bytes);
    queue_lay(&transmission->queue, bytes + TREE_LENGTH);
}

void txr_lay(const struct transmission *transmission, uint8_t *bytes)
{
    queue_lay(&transmission->queue, bytes);
}

/* ------------------------------------------------------------------------ */
/* Places                                                                   */
/* ------------------------------------------------------------------------ */

void tx_queue_add(struct tx_queue *queue, unsigned entry, uint8_t readiness, uint8_t started)
{
    queue->entry[entry] = (struct tx_entry){true, readiness, started};
    unsigned cls = place_of(&queue->entry[entry]);
    if (cls != NO_CLASS)
        list_push_back(&queue->queues.list[cls], entry);
}

unsigned place_of(const struct tx_entry *entry)
{
    unsigned priority = 0;
    if (!entry->registered || entry->readiness == 0)
        return NO_CLASS;
    while (!set_has(entry->readiness, priority))
        priority++;
    return set_has(entry->started, priority) ? started_class(priority) : finished_class(priority);
}

unsigned picked_class(const struct tx_queue *queue, unsigned mask)
{
    for (unsigned c = 0; c < TX_CLASSES; c++)
        if (set_has(mask, class_priority(c)) && queue->queues.list[c].count > 0)
            return c;
    return NO_CLASS;
}

unsigned picked_entry(const struct tx_queue *queue)
{
    return queue->queues.list[picked_class(queue, queue->mask)].entry[0];
}
