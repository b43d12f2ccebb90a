/*
 * The meaning of the bytes of a transmit registry, of messages or of responses: plain
 * queues and sets, read and laid out by docs/STATES.md.
 */
#ifndef STATE_TX_H
#define STATE_TX_H

#include "state_mcq.h"
#include "state_tree.h"

/*
 * Where the parts of a transmit queue stand: a list queue, a readiness set, a started
 * set and a flag of each entry, the wake mask, and the open pick's mask and mtu. A
 * response registry is a transmit queue; a message registry has a tree before it.
 */
enum {
    READINESS_AT = 290,
    STARTED_AT = READINESS_AT + REGISTRY_ENTRIES,
    REGISTERED_AT = STARTED_AT + REGISTRY_ENTRIES,
    WAKE_MASK_AT = REGISTERED_AT + REGISTRY_ENTRIES,
    PICK_MASK_AT,
    PICK_MTU_AT,
    TX_QUEUE_LENGTH
};

enum { PRIORITIES = 8, TX_CLASSES = 2 * PRIORITIES };

/* The classes of a priority, and the priority of a class. */
static inline unsigned started_class(unsigned priority)
{
    return 2 * priority;
}

static inline unsigned finished_class(unsigned priority)
{
    return 2 * priority + 1;
}

static inline unsigned class_priority(unsigned cls)
{
    return cls / 2;
}

static inline bool set_has(unsigned set, unsigned priority)
{
    return (set >> priority & 1) == 1;
}

struct tx_entry {
    bool registered;
    uint8_t readiness; /* this and the next say nothing of an entry that is not registered */
    uint8_t started;
};

struct tx_queue {
    struct lists queues;
    struct tx_entry entry[REGISTRY_ENTRIES];
    uint8_t wake_mask;
    uint8_t mask; /* the open pick's */
    uint8_t mtu;  /* the open pick's, or 0 */
};

/* The tree of a response registry is empty. */
struct transmission {
    struct tree subjects;
    struct tx_queue queue;
};

/* No entries. */
void transmission_clear(struct transmission *transmission);

/* The meaning of a whole state's bytes. */
void txm_read(const uint8_t *bytes, struct transmission *transmission);
void txr_read(const uint8_t *bytes, struct transmission *transmission);

/*
 * Lay the meaning out over bytes of its length. What says nothing of it is left, and
 * so is a flag that says the same already.
 */
void txm_lay(const struct transmission *transmission, uint8_t *bytes);
void txr_lay(const struct transmission *transmission, uint8_t *bytes);

/* Registers an entry with these sets, at the back of its place. */
void tx_queue_add(struct tx_queue *queue, unsigned entry, uint8_t readiness, uint8_t started);

/* The class that an entry belongs in, or NO_CLASS. */
unsigned place_of(const struct tx_entry *entry);

/* The first class that a mask lets through and that is not empty, or NO_CLASS. */
unsigned picked_class(const struct tx_queue *queue, unsigned mask);

/* The entry that the open pick named. */
unsigned picked_entry(const struct tx_queue *queue);

#endif
