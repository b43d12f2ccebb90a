/* What the registries' calls share, on a plain tree and a walk over it. */
#ifndef MODEL_TREE_H
#define MODEL_TREE_H

#include "gomxeli.h"
#include "state_tree.h"

/*
 * The refusals of a registry of one tree, or 0: of registering n[0] on n[1], which is
 * a subject or a service up to the largest, and of removing n[0].
 */
gomxeli_answer refuse_registering(const struct tree *tree, const uint32_t *n, uint32_t largest);
gomxeli_answer refuse_removing(const struct tree *tree, const uint32_t *n);

/* Where a walk ends: before the next head, or at the end of the list. */
enum walk_end { BEFORE_HEAD, AT_END };

/* The entry that a walk at the place goes on to, or NO_WALK. */
unsigned walk_after(const struct tree *tree, unsigned place, enum walk_end end);

/* hub_push_start and hub_push_next. */
gomxeli_answer walk_start(const struct tree *tree, unsigned *walk, uint32_t subject);
gomxeli_answer walk_next(const struct tree *tree, unsigned *walk, enum walk_end end);

#endif
