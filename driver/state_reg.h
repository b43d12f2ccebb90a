/*
 * The meaning of a regular registry's bytes as plain lists of entries and their
 * subjects and two queues, read and laid out by docs/STATES.md.
 */
#ifndef STATE_REG_H
#define STATE_REG_H

#include "state_mcq.h"
#include "state_tree.h"

/* Where the parts stand: two trees, a list queue, the slot counter, the flag, the walk. */
enum {
    ACTIVE_AT = 0,
    INACTIVE_AT = 385,
    QUEUES_AT = 770,
    SLOTS_AT = 1032,
    LAST_GAP_AT = 1034,
    WALK_AT = 1035
};

enum { CLEAN_UP_CLASS, ACTIVATION_CLASS, REGISTRY_CLASSES };

struct registry {
    struct tree active;
    struct tree inactive;
    struct lists queues;
    unsigned slots;
    bool last_gap;
    unsigned walk; /* an entry, or NO_WALK */
};

/* No entries. */
void registry_clear(struct registry *registry, unsigned slots);

/* The meaning of a whole state's bytes. */
void registry_read(const uint8_t *bytes, struct registry *registry);

/*
 * Lays the meaning out over bytes of its length. What says nothing of it is left, and
 * so is a flag that says the same already.
 */
void registry_lay(const struct registry *registry, uint8_t *bytes);

/* Whether the entry carries a clean-up mark. */
bool registry_is_marked(const struct registry *registry, unsigned entry);

#endif
