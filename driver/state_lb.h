/*
 * The meaning of a loop-back registry's bytes, read and laid out by docs/STATES.md. A
 * request registry's bytes are one tree, and need no more than state_tree.h.
 */
#ifndef STATE_LB_H
#define STATE_LB_H

#include "state_tree.h"

/* The tree comes first; after the walk come bytes that say nothing. */
enum { LB_WALK_AT = TREE_LENGTH, LB_SILENT_AT = LB_WALK_AT + 1, LB_SILENT = 3 };

struct loop_back {
    struct tree entries;
    unsigned walk; /* an entry, or NO_WALK */
};

/* No entries. */
void loop_back_clear(struct loop_back *loop_back);

/* The meaning of a whole state's bytes. */
void loop_back_read(const uint8_t *bytes, struct loop_back *loop_back);

/* Lays the meaning out over bytes of its length; what says nothing of it is left. */
void loop_back_lay(const struct loop_back *loop_back, uint8_t *bytes);

#endif
