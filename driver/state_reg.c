#include "state_reg.h"

#include "state_number.h"

enum { LAST_GAP_WRITTEN = 1 };

void registry_clear(struct registry *registry, unsigned slots)
{
    registry->active.count = 0;
    registry->inactive.count = 0;
    lists_clear(&registry->queues, REGISTRY_CLASSES, REGISTRY_ENTRIES);
    registry->slots = slots;
    registry->last_gap = false;
    registry->walk = NO_WALK;
}

void registry_read(const uint8_t *bytes, struct registry *registry)
{
    tree_read(bytes + ACTIVE_AT, &registry->active);
    tree_read(bytes + INACTIVE_AT, &registry->inactive);
    lists_read(bytes + QUEUES_AT, &registry->queues);
    registry->slots = number_read(bytes + SLOTS_AT, 2);
    registry->last_gap = bytes[LAST_GAP_AT] != 0;
    registry->walk = walk_read(bytes[WALK_AT]);
}

void registry_lay(const struct registry *registry, uint8_t *bytes)
{
    tree_lay(&registry->active, bytes + ACTIVE_AT);
    tree_lay(&registry->inactive, bytes + INACTIVE_AT);
    lists_lay(&registry->queues, bytes + QUEUES_AT);
    number_lay(bytes + SLOTS_AT, 2, registry->slots);
    if (registry->last_gap != (bytes[LAST_GAP_AT] != 0))
        bytes[LAST_GAP_AT] = registry->last_gap ? LAST_GAP_WRITTEN : 0;
    walk_lay(registry->walk, &bytes[WALK_AT]);
}

bool registry_is_marked(const struct registry *registry, unsigned entry)
{
    return lists_class(&registry->queues, entry) == CLEAN_UP_CLASS;
}
