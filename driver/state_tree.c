#include "state_tree.h"

#include <string.h>

#include "state_number.h"

enum { NO_ENTRY_WRITTEN = 255, NO_WALK_WRITTEN = 255 };

void tree_read(const uint8_t *bytes, struct tree *tree)
{
    tree->count = bytes[0];
    for (unsigned i = 0; i < tree->count; i++) {
        const uint8_t *place = bytes + PLACES_AT + PLACE_LENGTH * i;
        tree->at[i].entry = place[0];
        tree->at[i].subject = (uint16_t)number_read(place + 1, 2);
    }
}

void tree_lay(const struct tree *tree, uint8_t *bytes)
{
    unsigned old_count = bytes[0] <= REGISTRY_ENTRIES ? bytes[0] : 0;
    bytes[0] = (uint8_t)tree->count;
    for (unsigned i = 0; i < tree->count; i++) {
        uint8_t *place = bytes + PLACES_AT + PLACE_LENGTH * i;
        place[0] = tree->at[i].entry;
        number_lay(place + 1, 2, tree->at[i].subject);
    }
    for (unsigned i = tree->count; i < old_count; i++)
        memset(bytes + PLACES_AT + PLACE_LENGTH * i, NO_ENTRY_WRITTEN, PLACE_LENGTH);
}

unsigned tree_find(const struct tree *tree, unsigned entry)
{
    unsigned i = 0;
    while (i < tree->count && tree->at[i].entry != entry)
        i++;
    return i;
}

unsigned tree_first_on(const struct tree *tree, unsigned subject)
{
    unsigned i = 0;
    while (i < tree->count && tree->at[i].subject != subject)
        i++;
    return i;
}

bool tree_has_entry(const struct tree *tree, unsigned entry)
{
    return tree_find(tree, entry) < tree->count;
}

bool tree_has_subject(const struct tree *tree, unsigned subject)
{
    return tree_first_on(tree, subject) < tree->count;
}

bool tree_is_head(const struct tree *tree, unsigned place)
{
    return tree_first_on(tree, tree->at[place].subject) == place;
}

void tree_insert(struct tree *tree, unsigned entry, unsigned subject)
{
    unsigned i = tree->count++;
    for (; i > 0 && tree->at[i - 1].subject > subject; i--)
        tree->at[i] = tree->at[i - 1];
    tree->at[i] = (struct endpoint){(uint8_t)entry, (uint16_t)subject};
}

void tree_remove(struct tree *tree, unsigned place)
{
    tree->count--;
    for (unsigned i = place; i < tree->count; i++)
        tree->at[i] = tree->at[i + 1];
}

unsigned walk_read(uint8_t byte)
{
    return byte < REGISTRY_ENTRIES ? byte : NO_WALK;
}

void walk_lay(unsigned walk, uint8_t *byte)
{
    if (walk != NO_WALK)
        *byte = (uint8_t)walk;
    else if (*byte < REGISTRY_ENTRIES)
        *byte = NO_WALK_WRITTEN;
}
