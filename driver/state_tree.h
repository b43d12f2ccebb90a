/*
 * An entry tree and a walk over one, as the registries have them: plain values, read
 * from their bytes and laid out over them by docs/STATES.md.
 */
#ifndef STATE_TREE_H
#define STATE_TREE_H

#include <stdbool.h>
#include <stdint.h>

enum { REGISTRY_ENTRIES = 128 };

/* A count, and as many places as entries, each an entry and its subject. */
enum { PLACES_AT = 1, PLACE_LENGTH = 3, TREE_LENGTH = PLACES_AT + PLACE_LENGTH * REGISTRY_ENTRIES };

struct endpoint {
    uint8_t entry;
    uint16_t subject;
};

/* Entries in the order of their subjects; of requests, their services. */
struct tree {
    unsigned count;
    struct endpoint at[REGISTRY_ENTRIES];
};

/* The meaning of a whole tree's bytes. */
void tree_read(const uint8_t *bytes, struct tree *tree);

/*
 * Lays the tree out over bytes of its length. Places that the bytes' tree had and
 * this one has not are filled with 255, the others without an entry are left.
 */
void tree_lay(const struct tree *tree, uint8_t *bytes);

/* The place of the entry, and of the first entry on the subject; or the count. */
unsigned tree_find(const struct tree *tree, unsigned entry);
unsigned tree_first_on(const struct tree *tree, unsigned subject);

bool tree_has_entry(const struct tree *tree, unsigned entry);
bool tree_has_subject(const struct tree *tree, unsigned subject);

/* Whether the entry at the place is the first of its subject. */
bool tree_is_head(const struct tree *tree, unsigned place);

/* Puts an entry in, after its equals; takes out the one at the place. */
void tree_insert(struct tree *tree, unsigned entry, unsigned subject);
void tree_remove(struct tree *tree, unsigned place);

/* A walk is the entry that it points at, or this. */
enum { NO_WALK = REGISTRY_ENTRIES };

/* The walk of a byte, and laid out over one; what says 'none' already is left. */
unsigned walk_read(uint8_t byte);
void walk_lay(unsigned walk, uint8_t *byte);

#endif
